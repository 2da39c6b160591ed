//! The groups of texts of which the least of five rules is asked: tables of every kind, rows
//! that all cross each other, about as many as the best choice is sought for and more, so
//! that each rule has the least peak of some table, and texts that are damaged or no tables
//! at all.

use crate::choice_groups as best;
use crate::compare::Case;
use crate::groups::{self, of_table, of_text, Make};
use crate::least_selfcheck::BY_HAND;
use crate::lowered_groups as lowered;
use crate::part::{group, Group};
use crate::rng::Rng;
use crate::turning_groups as turning;

pub const LEAST_GROUPS: [Group<Make>; 26] = [
    group("least: by hand", 0, by_hand),
    group("least: the stated tables", 0, groups::stated),
    group(
        "least: about as many rows as there may be",
        0,
        groups::about_most,
    ),
    group("least: every byte of the square", 0, groups::every_byte),
    group("least: full rings", 0, full),
    group("least: 1,024 circuits", 0, most_circuits),
    group("least: 0 to 20 split rows", 0, best::counted),
    group("least: rows that cross", 150, best::crossing),
    group(
        "least: rows that cross and others",
        200,
        best::crossing_and_others,
    ),
    group("least: about 16 split rows", 10, lowered::about_sixteen),
    group("least: 17 split rows and more", 25, best::too_many),
    group("least: 16 to 32 rows that cross", 50, many_crossing),
    group("least: equal peaks", 200, best::equal_peaks),
    group("least: rows of amount 0", 60, best::nothing_sent),
    group("least: random tables, 2 to 15 offices", 150, groups::small),
    group("least: shaped tables", 60, turning::shaped),
    group(
        "least: circuits, 2 to 15 offices",
        100,
        groups::circuits_small,
    ),
    group(
        "least: circuits, 16 to 64 offices",
        30,
        best::circuits_large,
    ),
    group("least: thin tables, 16 to 64 offices", 60, best::thin),
    group("least: damaged tables", 120, turning::damaged),
    group("least: damaged rows", 60, turning::damaged_rows),
    group("least: damaged, 17 split rows", 60, best::damaged_too_many),
    group("least: 1,025 rows and more", 20, groups::too_many_rows),
    group("least: padded texts", 20, groups::padded),
    group("least: sheets", 30, turning::of_sheets),
    group("least: matrices and noise", 20, lowered::neither),
];

fn by_hand(_: &mut Rng, case: u64) -> Option<Case> {
    let (text, ..) = BY_HAND.get(case as usize)?;
    of_text(text, Vec::new())
}

/// Some of those that are turned, of each ring size.
fn full(rng: &mut Rng, case: u64) -> Option<Case> {
    const OF_TURNING: [u64; 13] = [0, 1, 2, 3, 4, 5, 48, 49, 50, 66, 67, 78, 82];
    turning::full(rng, *OF_TURNING.get(case as usize)?)
}

/// Of one pair, of two opposite ones, and of few pairs.
fn most_circuits(rng: &mut Rng, case: u64) -> Option<Case> {
    const OF_TURNING: [u64; 3] = [1, 6, 13];
    turning::most_circuits(rng, *OF_TURNING.get(case as usize)?)
}

/// So many that rule D is often the least there is, and a few rows beside them.
fn many_crossing(rng: &mut Rng, _: u64) -> Option<Case> {
    let count = rng.between(16, 32) as usize;
    let n = rng.between(2 * count as i64, 64);
    let most = rng.pick(&[1, 2, 3, 5, 9, 40, 800, 9_999]);
    let mut table = best::crossed(rng, n, count, most);
    if rng.chance(1, 2) {
        for row in &mut table.rows {
            row.amount = rng.pick(&[1, most]);
        }
    }
    let others = rng.pick(&[0, 0, 1, 2, 4, 9]);
    of_table(&best::with_others(rng, table, others, most), Vec::new())
}
