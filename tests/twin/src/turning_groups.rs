//! The groups of texts of which the circuits are sent one turn at a time: tables of
//! every kind, full rings of 8 to 32 offices and one of 64 among them, and texts that are
//! damaged or no tables at all. Where many lists are equal, ties decide.

use crate::compare::Case;
use crate::family::Family;
use crate::gen::{self, Amounts};
use crate::groups::{self, of_table, of_text, Make};
use crate::limits::ROWS;
use crate::matrices;
use crate::part::{group, Group};
use crate::rng::Rng;
use crate::sheets;
use crate::table::{Row, Table};
use crate::turning_selfcheck::BY_HAND;

pub const TURNING_GROUPS: [Group<Make>; 21] = [
    group("turning: by hand", 0, by_hand),
    group("turning: the stated tables", 0, groups::stated),
    group("turning: all small tables", 0, groups::all_small),
    group(
        "turning: about as many rows as there may be",
        0,
        groups::about_most,
    ),
    group("turning: every byte of the square", 0, groups::every_byte),
    group("turning: full rings", 0, full),
    group("turning: 1,024 circuits", 0, most_circuits),
    group("turning: equal lists", 250, equal_lists),
    group("turning: rows of amount 0", 100, nothing_sent),
    group(
        "turning: random tables, 2 to 15 offices",
        120,
        groups::small,
    ),
    group("turning: shaped tables", 100, shaped),
    group(
        "turning: circuits, 2 to 15 offices",
        150,
        groups::circuits_small,
    ),
    group("turning: circuits, 16 to 64 offices", 40, circuits_large),
    group("turning: thin tables, 16 to 64 offices", 100, thin),
    group("turning: damaged tables", 160, damaged),
    group("turning: damaged rows", 60, damaged_rows),
    group("turning: 1,025 rows and more", 20, groups::too_many_rows),
    group("turning: padded texts", 20, groups::padded),
    group("turning: sheets", 30, of_sheets),
    group("turning: matrices", 20, matrices::any),
    group("turning: noise", 20, groups::noise),
];

/// No call of texts is made with what a group gives.
fn alone(table: &Table) -> Option<Case> {
    of_table(table, Vec::new())
}

fn by_hand(_: &mut Rng, case: u64) -> Option<Case> {
    let (text, _) = BY_HAND.get(case as usize)?;
    of_text(text, Vec::new())
}

/// All pairs of 8, 16, 20 and 32 offices, with amounts of every kind; the larger of
/// them are dear. Of 64 as many as there may be rows, few of which have an amount.
pub fn full(rng: &mut Rng, case: u64) -> Option<Case> {
    let mixed = [Amounts::UpTo(9_999), Amounts::Mixed, Amounts::UpTo(9)];
    let even = [Amounts::Always(9_999), Amounts::Always(1), Amounts::Ends];
    let kinds = [mixed, even].concat();
    let n = match case {
        0..48 => 8,
        48..66 => 16,
        66..78 => 20,
        78..82 => 32,
        82 => return alone(&mostly_nothing(rng, 64)),
        _ => return None,
    };
    let amounts = kinds[case as usize % kinds.len()];
    alone(&gen::full(rng, n, amounts))
}

/// A full table, one in twenty of whose rows has an amount, so that it is soon turned.
fn mostly_nothing(rng: &mut Rng, n: i64) -> Table {
    let mut table = gen::full(rng, n, Amounts::UpTo(9_999));
    for row in &mut table.rows {
        row.amount *= i64::from(rng.chance(1, 20));
    }
    table
}

/// 1,024 circuits of one pair, of two opposite ones, of neighbours, and of few pairs.
pub fn most_circuits(rng: &mut Rng, case: u64) -> Option<Case> {
    let n = [2, 3, 8, 16][case as usize % 4];
    let half = (n / 2).max(1);
    let pairs = match case {
        0..4 => vec![(1, 1 + half)],
        4..8 => vec![(1, 1 + half), (half, n)],
        8..12 => vec![(1, 2), (1, n)],
        12..14 => return alone(&gen::circuits(rng, n, ROWS)),
        _ => return None,
    };
    let rows = pairs.iter().flat_map(|(i, j)| {
        let count = ROWS / pairs.len();
        vec![Row::of(*i, *j, 9_999); count]
    });
    let mut rows: Vec<Row> = rows.filter(|row| row.first < row.second).collect();
    rows.sort_by_key(|row| (row.first, row.second));
    alone(&Table {
        n,
        fibres: 4,
        family: Family::Sonet,
        rows,
    })
}

/// Few sizes, so that lists are often equal, or one the beginning of another.
fn equal_lists(rng: &mut Rng, _: u64) -> Option<Case> {
    let (n, count) = (rng.between(2, 9), rng.between(1, 14));
    let mut table = match rng.below(3) {
        0 => gen::shaped(rng, n),
        1 => gen::circuits(rng, n, count as usize),
        _ => gen::sparse(rng, n, count as usize),
    };
    let most = rng.pick(&[1, 1, 2, 3]);
    for row in &mut table.rows {
        row.amount = rng.between(1, most);
    }
    alone(&table)
}

/// Every other row or so has amount 0.
fn nothing_sent(rng: &mut Rng, _: u64) -> Option<Case> {
    let (n, count) = (rng.between(2, 16), rng.between(1, 30));
    let mut table = gen::circuits(rng, n, count as usize);
    for row in &mut table.rows {
        row.amount *= i64::from(rng.chance(1, 2));
    }
    alone(&table)
}

pub fn shaped(rng: &mut Rng, _: u64) -> Option<Case> {
    let n = rng.between(2, 24);
    let mut table = gen::shaped(rng, n);
    table.rows.truncate(80);
    alone(&table)
}

fn circuits_large(rng: &mut Rng, _: u64) -> Option<Case> {
    let (n, count) = (rng.between(16, 64), rng.between(2, 60));
    alone(&gen::circuits(rng, n, count as usize))
}

fn thin(rng: &mut Rng, _: u64) -> Option<Case> {
    let (n, count) = (rng.between(16, 64), rng.between(0, 40));
    alone(&gen::sparse(rng, n, count as usize))
}

/// A table of a size that is soon turned, damaged once or several times.
pub fn damaged(rng: &mut Rng, _: u64) -> Option<Case> {
    let (n, count) = (rng.between(2, 64), rng.between(0, 30));
    let mut made = alone(&gen::circuits(rng, n, count as usize))?;
    for _ in 0..rng.pick(&[1, 1, 2, 4]) {
        gen::damage_any(rng, &mut made.text, gen::damage_row);
    }
    Some(made)
}

pub fn damaged_rows(rng: &mut Rng, _: u64) -> Option<Case> {
    let (n, count) = (rng.between(2, 64), rng.between(1, 30));
    let mut made = alone(&gen::circuits(rng, n, count as usize))?;
    gen::damage_row(rng, &mut made.text);
    Some(made)
}

/// Sheets are no tables, whichever tool made them.
pub fn of_sheets(rng: &mut Rng, case: u64) -> Option<Case> {
    let makes = [sheets::ours, sheets::foreign_small, sheets::foreign_large];
    makes[case as usize % makes.len()](rng, case)
}
