//! The twin's own checks of whether circuits cross: tables by hand, and what is promised of
//! the best choice, by both ways of dividing circuits.

use crate::bars::barred;
use crate::choice::{self, Left};
use crate::choice_groups::crossed;
use crate::crossing::{self, Crossing};
use crate::gen;
use crate::limits::SPLIT;
use crate::lowered;
use crate::rng::Rng;
use crate::rules;
use crate::selfcheck::{holds, same, table, Outcome};
use crate::sheet::table_text;
use crate::table::Table;

/// Tables of which one sentence or another decides, each with the answer.
pub const BY_HAND: [(&str, Crossing); 21] = [
    // rule D's peak is 19, of which the bound does not hold
    ("R|6|4\nD|1|4|9\nD|2|5|3\nD|3|6|7\n", Crossing::All(37)),
    ("R|2|4\n", Crossing::All(0)),
    ("R|2|4\nD|1|2|0\nD|1|2|0\n", Crossing::All(0)),
    ("R|2|4\nD|1|2|5\n", Crossing::All(15)),
    ("R|4|4\nD|1|3|1\nD|2|4|1\n", Crossing::All(4)),
    (
        "R|8|4\nD|1|5|3\nD|2|6|3\nD|3|7|3\nD|4|8|6\n",
        Crossing::All(27),
    ),
    ("R|64|4\nD|1|64|9999\n", Crossing::All(29_997)),
    (
        "R|5|4\nD|1|2|2\nD|1|4|5\nD|2|3|9\nD|2|4|11\nD|3|4|4\nD|3|5|3\n",
        Crossing::Parallel(1, 2),
    ),
    // equal offices, with an amount and without
    ("R|4|4\nD|1|3|1\nD|1|3|1\n", Crossing::Parallel(1, 2)),
    ("R|4|4\nD|1|3|1\nD|1|3|0\n", Crossing::All(3)),
    (
        "R|4|4\nD|1|3|0\nD|1|3|3\nD|1|3|0\nD|1|3|1\n",
        Crossing::Parallel(2, 4),
    ),
    // one office shared, apart, and one inside the other
    ("R|4|4\nD|1|2|1\nD|1|3|1\n", Crossing::Parallel(1, 2)),
    ("R|4|4\nD|1|4|1\nD|2|4|1\n", Crossing::Parallel(1, 2)),
    ("R|4|4\nD|1|2|1\nD|2|4|1\n", Crossing::Parallel(1, 2)),
    ("R|4|4\nD|1|2|1\nD|3|4|1\n", Crossing::Parallel(1, 2)),
    ("R|4|4\nD|1|4|1\nD|2|3|1\n", Crossing::Parallel(1, 2)),
    // of several pairs the first
    (
        "R|6|4\nD|1|4|1\nD|2|5|1\nD|3|5|1\n",
        Crossing::Parallel(2, 3),
    ),
    (
        "R|8|4\nD|1|4|1\nD|2|6|1\nD|4|7|1\nD|5|8|1\n",
        Crossing::Parallel(1, 3),
    ),
    (
        "R|8|4\nD|1|5|1\nD|2|7|1\nD|3|6|1\nD|5|8|1\n",
        Crossing::Parallel(1, 4),
    ),
    (
        "R|6|4\nD|1|4|0\nD|2|5|1\nD|3|5|0\nD|3|6|1\nD|4|5|2\n",
        Crossing::Parallel(2, 5),
    ),
    (
        "R|6|4\nD|1|2|0\nD|1|3|0\nD|1|4|1\nD|2|3|0\nD|2|5|1\nD|4|5|1\nD|5|6|0\n",
        Crossing::Parallel(3, 6),
    ),
];

pub fn by_hand() -> Outcome {
    for (text, due) in BY_HAND {
        same(text, crossing::answer(&table(text)?), due)?;
    }
    let rows = |count: i64| (1..=count).map(|k| format!("D|{k}|{}|1\n", k + 32));
    for (count, due) in [
        (SPLIT as i64, Crossing::All(18)),
        (SPLIT as i64 + 1, Crossing::Many),
        (32, Crossing::Many),
    ] {
        let text = format!("R|64|4\n{}", rows(count).collect::<String>());
        same(&text, crossing::answer(&table(&text)?), due)?;
    }
    // a pair behind 17 rows that cross wins
    let text = format!("R|64|4\n{}D|18|20|1\n", rows(17).collect::<String>());
    same(
        &text,
        crossing::answer(&table(&text)?),
        Crossing::Parallel(1, 18),
    )?;
    let rule_d = rules::plan(&table(BY_HAND[0].0)?).peak;
    holds("twice rule D's peak is above the bound", 2 * rule_d == 38)
}

/// Where all cross, each row that has an amount is halved, so that no more are split than
/// are chosen for, and twice the best choice's peak is at most the bound; and as many
/// units are across the largest cut as there are.
fn of_left(left: &Left, bound: i64) -> Outcome {
    let rows = left.table.rows.iter().zip(&left.sent);
    let halved = rows
        .clone()
        .all(|(row, sent)| (sent.front, sent.back) == (row.amount, row.amount));
    holds("each row is halved", halved)?;
    let sum: i64 = rows.map(|(row, _)| row.amount).sum();
    same("the across number", left.cut.across, sum)?;
    let Ok(plan) = choice::plan_left(left, &choice::SENTENCES) else {
        return holds("at most 16 rows are split", false);
    };
    holds(
        "twice the peak is at most the bound",
        2 * plan.peak <= bound,
    )
}

fn theorems(table: &Table) -> Outcome {
    let Crossing::All(bound) = crossing::answer(table) else {
        return Ok(());
    };
    of_left(&choice::left(table), bound)?;
    of_left(&lowered::left(table, &lowered::SENTENCES), bound)
}

/// The theorems on random tables: of rows that cross, some of amount 0, and of any.
pub fn random_theorems(seed: u64) -> Outcome {
    for case in 0..600 {
        let mut rng = Rng::for_case(seed, 15_000, case);
        let table = if case % 4 == 0 {
            gen::for_theorems(&mut rng, case / 4)
        } else {
            let count = rng.between(1, 10) as usize;
            let (n, most) = (rng.between(2 * count as i64, 40), rng.pick(&[1, 3, 9_999]));
            let mut table = crossed(&mut rng, n, count, most);
            let none = rng.below(2 * count);
            if let Some(row) = table.rows.get_mut(none) {
                row.amount = 0;
            }
            table
        };
        theorems(&table).map_err(|what| {
            let text = barred(&table_text(&table));
            format!("seed {seed}, table {case}: {what}\n{text}")
        })?;
    }
    Ok(())
}
