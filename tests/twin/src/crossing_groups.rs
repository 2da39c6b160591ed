//! The groups of texts of which it is asked whether all circuits cross: rows that cross,
//! of amount 0 and above, with one that is parallel put in anywhere, about as many as are
//! few enough; tables of every kind, full rings of 20, 32 and 64 offices; and texts that
//! are damaged or no tables at all.

use crate::choice_groups::{self as best, crossed, with_others};
use crate::compare::Case;
use crate::crossing_selfcheck::BY_HAND;
use crate::gen::{self, Amounts};
use crate::groups::{self, of_table, of_text, Make};
use crate::limits::{ROWS, SPLIT};
use crate::matrices;
use crate::part::{group, Group};
use crate::rng::Rng;
use crate::table::{Row, Table};

pub const CROSSING_GROUPS: [Group<Make>; 27] = [
    group("crossing: by hand", 0, by_hand),
    group("crossing: the stated tables", 0, groups::stated),
    group("crossing: all small tables", 0, groups::all_small),
    group(
        "crossing: about as many rows as there may be",
        0,
        groups::about_most,
    ),
    group("crossing: every byte of the square", 0, groups::every_byte),
    group("crossing: full rings", 0, full),
    group("crossing: 0 to 20 rows, and 32", 0, counted),
    group("crossing: 16 rows", 20, sixteen),
    group("crossing: 17 rows and more", 60, too_many),
    group("crossing: 1,024 rows, most of amount 0", 20, mostly_nothing),
    group("crossing: rows that cross", 300, crossing),
    group("crossing: one row beside them", 400, one_beside),
    group("crossing: one row beside 16 and more", 200, one_beside_many),
    group("crossing: other rows beside them", 100, others_beside),
    group("crossing: rows of amount 0", 200, nothing_sent),
    group("crossing: one office shared", 200, one_shared),
    group(
        "crossing: random tables, 2 to 15 offices",
        100,
        groups::small,
    ),
    group("crossing: shaped tables", 100, shaped),
    group(
        "crossing: circuits, 16 to 64 offices",
        40,
        best::circuits_large,
    ),
    group("crossing: thin tables, 16 to 64 offices", 60, best::thin),
    group("crossing: damaged tables", 160, best::damaged),
    group(
        "crossing: damaged, 17 rows that cross",
        60,
        best::damaged_too_many,
    ),
    group("crossing: 1,025 rows and more", 20, groups::too_many_rows),
    group("crossing: padded texts", 20, groups::padded),
    group("crossing: sheets", 30, best::of_sheets),
    group("crossing: matrices", 20, matrices::any),
    group("crossing: noise", 20, groups::noise),
];

/// No call of texts is made with what a group gives.
fn alone(table: &Table) -> Option<Case> {
    of_table(table, Vec::new())
}

fn by_hand(_: &mut Rng, case: u64) -> Option<Case> {
    let (text, _) = BY_HAND.get(case as usize)?;
    of_text(text, Vec::new())
}

/// All pairs of 20 and of 32 offices, and as many as there may be rows of 64, by amounts
/// of every kind: all of them, none but the last two, and one row in a hundred.
fn full(rng: &mut Rng, case: u64) -> Option<Case> {
    let n = *[20, 32, 64].get(case as usize % 3)?;
    let kinds = [Amounts::UpTo(9_999), Amounts::Always(1), Amounts::Mixed];
    let mut table = gen::full(rng, n, kinds[case as usize / 3 % 3]);
    let count = table.rows.len();
    let keeps: fn(&mut Rng, usize) -> bool = match case / 9 {
        0 => |_, _| true,
        1 => |_, from_last| from_last < 2,
        2 => |rng, _| rng.chance(1, 100),
        _ => return None,
    };
    for (at, row) in table.rows.iter_mut().enumerate() {
        row.amount *= i64::from(keeps(rng, count - 1 - at));
    }
    alone(&table)
}

fn any_most(rng: &mut Rng) -> i64 {
    rng.pick(&[1, 2, 9, 800, 9_999])
}

/// So many rows that cross on a ring that has room for them.
fn drawn(rng: &mut Rng, count: usize) -> Table {
    let n = rng.between((2 * count as i64).max(2), 64);
    let most = any_most(rng);
    crossed(rng, n, count, most)
}

/// The table with rows of amount 0 put in.
fn with_nothing(rng: &mut Rng, table: Table, count: usize) -> Table {
    with_others(rng, table, count, 0)
}

/// 0 to 20 rows and 32, four times each, twice with rows of amount 0 between.
fn counted(rng: &mut Rng, case: u64) -> Option<Case> {
    let count = match case / 4 {
        count @ 0..=20 => count as usize,
        21 => 32,
        _ => return None,
    };
    let table = drawn(rng, count);
    let table = with_nothing(rng, table, [0, 0, 1, 30][case as usize % 4]);
    alone(&table)
}

fn sixteen(rng: &mut Rng, _: u64) -> Option<Case> {
    let table = drawn(rng, SPLIT);
    let others = rng.pick(&[0, 1, 12]);
    alone(&with_nothing(rng, table, others))
}

fn any_too_many(rng: &mut Rng) -> usize {
    rng.pick(&[17, 17, 17, 18, 24, 32])
}

fn too_many(rng: &mut Rng, _: u64) -> Option<Case> {
    let count = any_too_many(rng);
    let table = drawn(rng, count);
    let others = rng.pick(&[0, 0, 9]);
    alone(&with_nothing(rng, table, others))
}

/// As many rows as there may be, of which a few have amounts.
fn mostly_nothing(rng: &mut Rng, _: u64) -> Option<Case> {
    let count = rng.pick(&[0, 1, 2, 9, 16, 17, 32]);
    let table = drawn(rng, count);
    let mut table = with_nothing(rng, table, ROWS - count);
    if rng.chance(1, 2) {
        let at = rng.below(ROWS);
        table.rows[at].amount = 1;
    }
    alone(&table)
}

fn crossing(rng: &mut Rng, _: u64) -> Option<Case> {
    let count = rng.between(1, 11) as usize;
    let table = drawn(rng, count);
    let others = rng.pick(&[0, 0, 3]);
    alone(&with_nothing(rng, table, others))
}

/// One row more, anywhere, which is parallel to one of them, to all or to none.
fn one_beside(rng: &mut Rng, _: u64) -> Option<Case> {
    let count = rng.between(1, 9) as usize;
    let table = drawn(rng, count);
    let most = rng.pick(&[1, 1, 9]);
    let table = with_others(rng, table, 1, most);
    let others = rng.pick(&[0, 3]);
    alone(&with_nothing(rng, table, others))
}

/// The same of so many that they are too many, with that row or without it.
fn one_beside_many(rng: &mut Rng, _: u64) -> Option<Case> {
    let count = rng.pick(&[16, 16, 17, 18, 32]);
    let table = drawn(rng, count);
    let most = rng.pick(&[1, 1, 9]);
    alone(&with_others(rng, table, 1, most))
}

fn others_beside(rng: &mut Rng, _: u64) -> Option<Case> {
    let (count, others) = (rng.between(1, 9) as usize, rng.between(2, 24) as usize);
    let (table, most) = (drawn(rng, count), any_most(rng));
    alone(&with_others(rng, table, others, most))
}

/// Every other row or so has amount 0.
fn nothing_sent(rng: &mut Rng, _: u64) -> Option<Case> {
    let count = rng.between(1, 20) as usize;
    let table = drawn(rng, count);
    let others = rng.pick(&[0, 1, 5]);
    let mut table = with_others(rng, table, others, 9);
    for row in &mut table.rows {
        row.amount *= i64::from(rng.chance(1, 2));
    }
    alone(&table)
}

/// Rows that cross but for two, which share an office: one's second is moved to an end of
/// the other, or one is the other once more.
fn one_shared(rng: &mut Rng, _: u64) -> Option<Case> {
    let count = rng.between(2, 17) as usize;
    let mut table = drawn(rng, count);
    let (one, other) = (rng.below(count), rng.below(count));
    let Row { first, second, .. } = table.rows[other];
    let row = &mut table.rows[one];
    match rng.below(4) {
        0 => row.first = first,
        1 => row.second = second,
        2 => (row.first, row.second) = (first, second),
        _ => row.second = first,
    }
    if row.first > row.second {
        (row.first, row.second) = (row.second, row.first);
    }
    if row.first == row.second {
        (row.first, row.second) = (first, second);
    }
    table.rows.sort_by_key(|row| (row.first, row.second));
    alone(&table)
}

fn shaped(rng: &mut Rng, _: u64) -> Option<Case> {
    let n = rng.between(2, 40);
    alone(&gen::shaped(rng, n))
}
