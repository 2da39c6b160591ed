//! The twin's own checks of the working table, by hand.

use crate::bars::barred;
use crate::compare::Lend;
use crate::family::Family;
use crate::selfcheck::{same, Outcome};
use crate::working::{Ask, Told, Working};

/// Reason, place, g, h and across number.
fn cut(table: &mut Working, ask: Ask) -> [u32; 5] {
    match table.tell(&ask, &mut []) {
        Told::Work(told) => [told.reason, told.place, told.g, told.h, told.across],
        _ => [0; 5],
    }
}

/// The text, tabs shown as |.
fn text(table: &mut Working) -> String {
    let mut buffer = [0; 200];
    match table.tell(&Ask::Write(Lend::Exactly(200)), &mut buffer) {
        Told::Text(reply) => barred(&buffer[..reply.length]),
        _ => String::new(),
    }
}

/// The square, a row at a time, and what is refused on the way.
pub fn square() -> Outcome {
    let table = &mut Working::fresh(2, 4, Family::Sonet);
    let calls = [
        (Ask::Start([1, 3, 1]), [3, 0, 0, 0, 0]),
        (Ask::Start([4, 3, 0]), [20, 0, 0, 0, 0]),
        (Ask::Start([4, 2, 0]), [0, 0, 1, 2, 0]),
        (Ask::Add([2, 4, 1]), [0, 1, 1, 2, 1]),
        (Ask::Add([1, 3, 1]), [0, 2, 1, 3, 2]),
        (Ask::Add([1, 3, 0]), [0, 3, 1, 3, 2]),
        (Ask::Add([5, 2, 10_000]), [4, 0, 0, 0, 0]),
        (Ask::Change(4, [5, 2, 10_000]), [22, 0, 0, 0, 0]),
        (Ask::Change(1, [3, 3, 10_000]), [5, 0, 0, 0, 0]),
        (Ask::Change(1, [3, 4, 10_000]), [7, 0, 0, 0, 0]),
        (Ask::Change(3, [1, 3, 7]), [0, 3, 1, 3, 9]),
        (Ask::Remove(1), [0, 1, 1, 3, 8]),
        (Ask::Remove(1), [22, 0, 0, 0, 0]),
        (Ask::Add([1, 2, 4]), [0, 1, 1, 3, 12]),
        (Ask::Remove(0), [22, 0, 0, 0, 0]),
        (Ask::Remove(1_025), [22, 0, 0, 0, 0]),
    ];
    for (ask, wanted) in calls {
        same(&format!("{ask:?}"), cut(table, ask), wanted)?;
    }
    let wanted = "R|4|2\nD|1|2|4\nD|1|3|1\nD|1|3|7\n";
    same("rows by nodes, then by place", text(table).as_str(), wanted)?;
    for (family, wanted) in [(0, "R|4|4\n"), (1, "R|4|4|M\n"), (2, "R|4|4|M\n")] {
        cut(table, Ask::Start([4, 4, family]));
        same("the family", text(table).as_str(), wanted)?;
    }
    Ok(())
}

/// A full table has no room for a good row, and names what is wrong of a bad one.
pub fn full() -> Outcome {
    let table = &mut Working::fresh(2, 4, Family::Sonet);
    for place in 1..=1_024 {
        same(
            "filling",
            cut(table, Ask::Add([1, 2, 1])),
            [0, place, 1, 2, place],
        )?;
    }
    for (row, reason) in [
        ([1, 2, 1], 21),
        ([1, 3, 1], 4),
        ([2, 1, 1], 5),
        ([1, 2, 10_000], 7),
    ] {
        same("full", cut(table, Ask::Add(row)), [reason, 0, 0, 0, 0])?;
    }
    same(
        "the place",
        cut(table, Ask::Remove(77)),
        [0, 77, 1, 2, 1_023],
    )?;
    same(
        "again",
        cut(table, Ask::Add([1, 2, 5])),
        [0, 77, 1, 2, 1_028],
    )
}
