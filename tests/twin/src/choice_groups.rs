//! The groups of texts that are routed by the best choice: rows that cross each other,
//! of which rules A to C leave as many split as are wanted, small amounts, so that ties
//! decide, tables of every kind, full rings of 16 to 64 offices among them, and texts
//! that are damaged or no tables at all.

use crate::choice_selfcheck::BY_HAND;
use crate::compare::{Case, Lend};
use crate::gen::{self, Amounts};
use crate::groups::{self, of_table, of_text, Make, ENOUGH, SHORT};
use crate::limits::SPLIT;
use crate::matrices;
use crate::part::{group, Group};
use crate::rng::Rng;
use crate::sheets;
use crate::table::{Row, Table};
use crate::twin::Call;

pub const CHOICE_GROUPS: [Group<Make>; 27] = [
    group("best: by hand", 0, by_hand),
    group("best: the stated tables", 0, groups::stated),
    group("best: all small tables", 0, groups::all_small),
    group(
        "best: about as many rows as there may be",
        0,
        groups::about_most,
    ),
    group("best: every byte of the square", 0, groups::every_byte),
    group("best: every buffer length", 0, every_length),
    group("best: full rings", 0, full),
    group("best: 0 to 20 split rows", 0, counted),
    group("best: 16 split rows", 6, sixteen),
    group("best: 17 split rows and more", 60, too_many),
    group("best: equal peaks", 400, equal_peaks),
    group("best: rows that cross", 300, crossing),
    group("best: rows that cross and others", 200, crossing_and_others),
    group("best: rows of amount 0", 100, nothing_sent),
    group("best: random tables, 2 to 15 offices", 150, groups::small),
    group("best: random tables, 16 to 32 offices", 16, medium),
    group("best: shaped tables", 60, shaped),
    group(
        "best: circuits, 2 to 15 offices",
        80,
        groups::circuits_small,
    ),
    group("best: circuits, 16 to 64 offices", 60, circuits_large),
    group("best: thin tables, 16 to 64 offices", 80, thin),
    group("best: damaged tables", 160, damaged),
    group("best: damaged, 17 split rows", 120, damaged_too_many),
    group("best: 1,025 rows and more", 20, groups::too_many_rows),
    group("best: padded texts", 20, groups::padded),
    group("best: sheets", 30, of_sheets),
    group("best: matrices", 20, matrices::any),
    group("best: noise", 20, groups::noise),
];

/// One call with a buffer that is long enough, and one with a shorter one.
fn both(rng: &mut Rng, table: &Table) -> Option<Case> {
    let trials = [rng.pick(&ENOUGH), rng.pick(&SHORT)];
    of_table(table, trials.map(|lend| (Call::RouteBest, lend)).to_vec())
}

pub fn by_hand(rng: &mut Rng, case: u64) -> Option<Case> {
    let (text, ..) = BY_HAND.get(case as usize)?;
    let lends = [rng.pick(&ENOUGH), rng.pick(&SHORT)];
    of_text(text, lends.map(|lend| (Call::RouteBest, lend)).to_vec())
}

/// Every length from 0 to the need and 17 more, of accepted tables and of such as are
/// refused with 23 or before.
pub fn every_length(rng: &mut Rng, case: u64) -> Option<Case> {
    let exact = (0..=160).map(Lend::Exactly);
    let trials: Vec<_> = exact.chain((-20..=17).map(Lend::Need)).collect();
    let trials = trials.into_iter().map(|lend| (Call::RouteBest, lend));
    match case {
        0..=5 => of_text(groups::NUMBERS[case as usize], trials.collect()),
        6 => of_text("R|4|4\nD|1|3|1\nD|2|2|1\n", trials.collect()),
        7 => of_table(&crossed(rng, 24, 6, 9), trials.collect()),
        8 => of_table(&crossed(rng, 40, SPLIT + 1, 9), trials.collect()),
        _ => None,
    }
}

/// So many rows that all cross each other, of amounts from 1 up: of these all are left
/// split. There are at least twice as many offices.
pub fn crossed(rng: &mut Rng, n: i64, count: usize, most: i64) -> Table {
    let mut nodes: Vec<i64> = (1..=n).collect();
    while nodes.len() > 2 * count {
        let at = rng.below(nodes.len());
        nodes.remove(at);
    }
    let pairs = nodes[..count].iter().zip(&nodes[count..]);
    let rows = pairs.map(|(i, j)| Row::of(*i, *j, rng.between(1, most)));
    let rows = rows.collect();
    gen::on_any_ring(rng, n, rows)
}

/// More rows, of short fronts and long ones.
pub fn with_others(rng: &mut Rng, mut table: Table, count: usize, most: i64) -> Table {
    let pairs = gen::pairs(table.n);
    for _ in 0..count {
        let (i, j) = rng.pick(&pairs);
        table.rows.push(Row::of(i, j, rng.between(0, most)));
    }
    table.rows.sort_by_key(|row| (row.first, row.second));
    table
}

fn any_most(rng: &mut Rng) -> i64 {
    rng.pick(&[1, 2, 3, 9, 40, 800, 9_999])
}

/// 0 to 20 rows that cross, with nothing beside them.
pub fn counted(rng: &mut Rng, case: u64) -> Option<Case> {
    if case > SPLIT as u64 + 4 {
        return None;
    }
    let count = case as usize;
    let n = rng.between((2 * count as i64).max(2), 64);
    let most = any_most(rng);
    let table = crossed(rng, n, count, most);
    both(rng, &table)
}

/// As many as are chosen for; most of the time other rows beside them.
fn sixteen(rng: &mut Rng, _: u64) -> Option<Case> {
    let (n, most, others) = (rng.between(32, 64), any_most(rng), rng.pick(&[0, 3, 12]));
    let table = crossed(rng, n, SPLIT, most);
    let table = with_others(rng, table, others, most);
    both(rng, &table)
}

pub fn too_many(rng: &mut Rng, _: u64) -> Option<Case> {
    let count = rng.pick(&[17, 17, 17, 18, 24, 32]);
    let (n, most) = (rng.between(2 * count as i64, 64), any_most(rng));
    let table = crossed(rng, n, count, most);
    let others = rng.pick(&[0, 0, 1, 9]);
    let table = with_others(rng, table, others, 3);
    both(rng, &table)
}

/// Few sizes, so that many ways have the same peak.
pub fn equal_peaks(rng: &mut Rng, _: u64) -> Option<Case> {
    let count = rng.between(2, 8) as usize;
    let (n, most) = (rng.between(2 * count as i64, 20), rng.pick(&[1, 1, 2, 3]));
    let table = crossed(rng, n, count, most);
    let others = rng.pick(&[0, 1, 4]);
    let table = with_others(rng, table, others, most);
    both(rng, &table)
}

pub fn crossing(rng: &mut Rng, _: u64) -> Option<Case> {
    let count = rng.between(1, 11) as usize;
    let (n, most) = (rng.between(2 * count as i64, 64), any_most(rng));
    let table = crossed(rng, n, count, most);
    both(rng, &table)
}

pub fn crossing_and_others(rng: &mut Rng, _: u64) -> Option<Case> {
    let count = rng.between(1, 9) as usize;
    let (n, most) = (rng.between(2 * count as i64, 64), any_most(rng));
    let table = crossed(rng, n, count, most);
    let others = rng.between(1, 24) as usize;
    let table = with_others(rng, table, others, most);
    both(rng, &table)
}

/// Every other row or so has amount 0.
pub fn nothing_sent(rng: &mut Rng, _: u64) -> Option<Case> {
    let count = rng.between(1, 8) as usize;
    let (n, most) = (rng.between(2 * count as i64, 24), any_most(rng));
    let table = crossed(rng, n, count, most);
    let mut table = with_others(rng, table, 9, most);
    for row in &mut table.rows {
        row.amount *= i64::from(rng.chance(1, 2));
    }
    both(rng, &table)
}

/// All pairs of 16 to 32 offices, and as many as there may be rows of 40 to 64.
fn full(rng: &mut Rng, case: u64) -> Option<Case> {
    let n = *[16, 16, 16, 20, 20, 24, 32, 32, 40, 64].get(case as usize)?;
    let kinds = [Amounts::UpTo(9_999), Amounts::UpTo(9), Amounts::Mixed];
    let table = gen::full(rng, n, kinds[case as usize % kinds.len()]);
    both(rng, &table)
}

pub fn medium(rng: &mut Rng, _: u64) -> Option<Case> {
    let n = rng.between(16, 32);
    let table = gen::any(rng, n);
    both(rng, &table)
}

pub fn shaped(rng: &mut Rng, _: u64) -> Option<Case> {
    let n = rng.between(2, 22);
    let mut table = gen::shaped(rng, n);
    table.rows.truncate(60);
    both(rng, &table)
}

pub fn circuits_large(rng: &mut Rng, _: u64) -> Option<Case> {
    let (n, count) = (rng.between(16, 64), rng.between(2, 60));
    let table = gen::circuits(rng, n, count as usize);
    both(rng, &table)
}

pub fn thin(rng: &mut Rng, _: u64) -> Option<Case> {
    let (n, count) = (rng.between(16, 64), rng.between(0, 40));
    let table = gen::sparse(rng, n, count as usize);
    both(rng, &table)
}

/// A table of a size that is soon routed, damaged once or several times.
pub fn damaged(rng: &mut Rng, _: u64) -> Option<Case> {
    let (n, count) = (rng.between(2, 64), rng.between(0, 30));
    let table = gen::circuits(rng, n, count as usize);
    damage(rng, &table)
}

/// What would be refused with 23, were it not damaged.
pub fn damaged_too_many(rng: &mut Rng, _: u64) -> Option<Case> {
    let n = rng.between(34, 64);
    let table = crossed(rng, n, SPLIT + 1, 99);
    damage(rng, &table)
}

fn damage(rng: &mut Rng, table: &Table) -> Option<Case> {
    let mut made = both(rng, table)?;
    for _ in 0..rng.pick(&[1, 1, 2, 4]) {
        gen::damage_any(rng, &mut made.text, gen::damage_row);
    }
    Some(made)
}

/// Sheets are no tables, whichever tool made them.
pub fn of_sheets(rng: &mut Rng, case: u64) -> Option<Case> {
    let makes = [sheets::ours, sheets::foreign_small, sheets::foreign_large];
    makes[case as usize % makes.len()](rng, case)
}
