//! The groups of texts that are routed by lowered rooms, with rule D and with the best
//! choice: those of the best choice, and tables in which rooms matter.

use crate::choice_groups as best;
use crate::compare::{Case, Lend};
use crate::gen::{self, Amounts};
use crate::groups::{self, of_table, Make};
use crate::matrices;
use crate::part::{group, Group};
use crate::rng::Rng;
use crate::twin::Call;

pub const LOWERED_GROUPS: [Group<Make>; 25] = [
    group("lowered: by hand", 0, best::by_hand),
    group("lowered: the stated tables", 0, groups::stated),
    group("lowered: all small tables", 0, groups::all_small),
    group(
        "lowered: about as many rows as there may be",
        0,
        groups::about_most,
    ),
    group("lowered: every byte of the square", 0, groups::every_byte),
    group("lowered: every buffer length", 0, best::every_length),
    group("lowered: full rings", 0, full),
    group("lowered: 0 to 20 split rows", 0, best::counted),
    group("lowered: 17 split rows and more", 60, best::too_many),
    group("lowered: about 16 split rows", 60, about_sixteen),
    group("lowered: rows that cross", 200, best::crossing),
    group(
        "lowered: rows that cross and others",
        300,
        best::crossing_and_others,
    ),
    group("lowered: rows of amount 0", 100, best::nothing_sent),
    group(
        "lowered: random tables, 2 to 15 offices",
        300,
        groups::small,
    ),
    group("lowered: random tables, 16 to 32 offices", 20, best::medium),
    group("lowered: shaped tables", 100, best::shaped),
    group(
        "lowered: circuits, 2 to 15 offices",
        150,
        groups::circuits_small,
    ),
    group(
        "lowered: circuits, 16 to 64 offices",
        60,
        best::circuits_large,
    ),
    group("lowered: thin tables, 16 to 64 offices", 150, best::thin),
    group("lowered: damaged tables", 120, best::damaged),
    group(
        "lowered: damaged, 17 split rows",
        60,
        best::damaged_too_many,
    ),
    group("lowered: 1,025 rows and more", 20, groups::too_many_rows),
    group("lowered: padded texts", 20, groups::padded),
    group("lowered: sheets", 30, best::of_sheets),
    group("lowered: matrices and noise", 20, neither),
];

/// All pairs of 16 to 32 offices, and as many as there may be rows of 64.
fn full(rng: &mut Rng, case: u64) -> Option<Case> {
    let n = *[16, 20, 24, 32, 64].get(case as usize)?;
    let kinds = [Amounts::UpTo(9_999), Amounts::UpTo(9), Amounts::Mixed];
    let table = gen::full(rng, n, kinds[case as usize % kinds.len()]);
    let lends = [Lend::Need(0), Lend::Need(-1)];
    of_table(
        &table,
        lends.map(|lend| (Call::RouteLowered, lend)).to_vec(),
    )
}

/// Rows that cross beside others as large, so that by level rooms there are often more
/// split rows or fewer.
pub fn about_sixteen(rng: &mut Rng, _: u64) -> Option<Case> {
    let (n, count, most) = (
        rng.between(34, 64),
        rng.between(15, 18),
        rng.pick(&[3, 9, 40]),
    );
    let table = best::crossed(rng, n, count as usize, most);
    let others = rng.between(2, 9) as usize;
    let table = best::with_others(rng, table, others, most);
    of_table(
        &table,
        vec![(Call::RouteLowered, rng.pick(&groups::ENOUGH))],
    )
}

pub fn neither(rng: &mut Rng, case: u64) -> Option<Case> {
    if case % 2 == 0 {
        matrices::any(rng, case)
    } else {
        groups::noise(rng, case)
    }
}
