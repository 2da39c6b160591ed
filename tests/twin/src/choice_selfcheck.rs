//! The twin's own checks of the best choice: tables by hand, and what is promised of
//! every answer.

use crate::bars::barred;
use crate::check;
use crate::choice::{self, SENTENCES};
use crate::family::Family;
use crate::gen;
use crate::limits::SPLIT;
use crate::rng::Rng;
use crate::rules::{self, Way};
use crate::selfcheck::{holds, letters, same, table, Outcome};
use crate::sheet::{sheet_text, table_text};
use crate::table::{Row, Table};
use crate::turns::other;

/// Tables of which one sentence or another decides, each with the peak of the best
/// choice, its ways, and the peak of rule D.
pub const BY_HAND: [(&str, i64, &str, i64); 13] = [
    ("R|2|4\n", 0, "", 0),
    ("R|2|4\nD|1|2|0\n", 0, "F", 0),
    ("R|2|4\nD|1|2|5\n", 5, "F", 5),
    // every way has the peak 2: none is turned back
    ("R|4|4\nD|1|3|1\nD|2|4|1\n", 2, "FF", 2),
    (
        "R|5|4\nD|1|2|2\nD|1|4|5\nD|2|3|9\nD|2|4|11\nD|3|4|4\nD|3|5|3\n",
        19,
        "FBFBFF",
        19,
    ),
    ("R|8|4\nD|1|4|1\nD|2|3|1\nD|5|8|2\nD|6|7|2\n", 4, "FFFF", 4),
    ("R|6|4\nD|1|4|3\nD|2|5|5\nD|3|6|4\n", 9, "FBF", 9),
    ("R|6|4\nD|1|4|1\nD|2|5|1\nD|3|6|2\n", 3, "FBF", 4),
    // two rows back have the peak too, and one back in two ways
    (
        "R|8|4\nD|1|5|3\nD|2|6|3\nD|3|7|3\nD|4|8|6\n",
        12,
        "FFBF",
        15,
    ),
    ("R|8|4\nD|1|5|1\nD|2|6|1\nD|3|7|1\nD|4|8|1\n", 3, "FFBF", 3),
    // three back would go F first
    (
        "R|10|4\nD|1|6|1\nD|2|7|2\nD|3|8|1\nD|4|9|3\nD|5|10|2\n",
        6,
        "BFFBF",
        7,
    ),
    (
        "R|10|4\nD|1|6|3\nD|2|7|1\nD|3|8|1\nD|4|9|1\nD|5|10|3\n",
        6,
        "BFFFB",
        8,
    ),
    (
        "R|10|4\nD|1|6|1\nD|2|7|3\nD|3|8|3\nD|4|9|1\nD|5|10|1\n",
        6,
        "BFBFF",
        8,
    ),
];

pub fn by_hand() -> Outcome {
    for (text, peak, ways, by_rule_d) in BY_HAND {
        let table = table(text)?;
        let plan = choice::plan(&table).map_err(|refusal| format!("{text}: {refusal:?}"))?;
        let got = (plan.peak, letters(&plan.ways), rules::plan(&table).peak);
        same(text, got, (peak, ways.to_owned(), by_rule_d))?;
    }
    for (count, reason) in [(SPLIT, 0), (SPLIT + 1, 23), (32, 23)] {
        let row = |first| Row::of(first, first + 32, 1);
        let rows = (1..=count as i64).map(row).collect();
        let table = Table {
            n: 64,
            fibres: 4,
            family: Family::Sonet,
            rows,
        };
        let got = choice::plan(&table).err().map(|refusal| refusal.reason);
        same("split rows", got.unwrap_or(0), reason)?;
    }
    Ok(())
}

/// The least peak that can be had of the split rows from one on, each sent front and
/// then back.
fn least_from(table: &Table, split: &[usize], ways: &mut Vec<Way>) -> i64 {
    let Some((row, rest)) = split.split_first() else {
        return choice::peak_of(table.n, &table.rows, ways);
    };
    let one = least_from(table, rest, ways);
    ways[*row] = other(ways[*row]);
    let two = least_from(table, rest, ways);
    ways[*row] = other(ways[*row]);
    one.min(two)
}

/// No choice has a lower peak, rule D's among them; what is not split goes as it says;
/// the sheet is accepted; and at most half as many rows are split as there are offices.
fn theorems(table: &Table) -> Outcome {
    let left = choice::left(table);
    let split: Vec<usize> = (0..left.sent.len())
        .filter(|at| rules::is_split(&left.sent[*at]))
        .collect();
    holds("at most n/2 split rows", 2 * split.len() as i64 <= table.n)?;
    let by_rule_d = rules::plan(table);
    let Ok(plan) = choice::plan(table) else {
        return holds("23 for more than 16", split.len() > SPLIT);
    };
    holds("16 at most", split.len() <= SPLIT)?;
    holds("at most rule D's peak", plan.peak <= by_rule_d.peak)?;
    let whole = (0..left.sent.len()).filter(|at| !split.contains(at));
    let kept = whole.clone().all(|at| plan.ways[at] == by_rule_d.ways[at]);
    holds("rows that are not split go as rule D says", kept)?;
    let least = least_from(table, &split, &mut by_rule_d.ways.clone());
    same("no choice has a lower peak", plan.peak, least)?;
    let read = check::read(&sheet_text(table, &plan)).map(|_| ());
    same("the sheet", read, Ok(()))?;
    let ways = choice::together(&left.sent, &choice::best(&left, &SENTENCES), &SENTENCES);
    same("the ways", letters(&plan.ways), letters(&ways))
}

/// The theorems on random tables.
pub fn random_theorems(seed: u64) -> Outcome {
    for case in 0..400 {
        let mut rng = Rng::for_case(seed, 7_000, case);
        let table = gen::for_theorems(&mut rng, case);
        theorems(&table).map_err(|what| {
            let text = barred(&table_text(&table));
            format!("seed {seed}, table {case}: {what}\n{text}")
        })?;
    }
    Ok(())
}
