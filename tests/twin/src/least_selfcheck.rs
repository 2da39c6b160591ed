//! The twin's own checks of the least of five rules, run before any comparison: tables by
//! hand, and what is promised of every answer.

use crate::bars::barred;
use crate::choice;
use crate::choice_groups::{crossed, with_others};
use crate::crossing::{self, Crossing};
use crate::gen;
use crate::least::{self, sent, Rule, RULES};
use crate::rng::Rng;
use crate::rules::{self, Way};
use crate::selfcheck::{holds, letters, same, table, Outcome};
use crate::sheet::table_text;
use crate::table::Table;
use crate::turns;

/// Peak, floor, number of the rule, and ways.
type Figures = (i64, i64, u32, &'static str);

/// What there is no peak of.
const NONE: i64 = -1;

/// Tables with the answer, and the peaks of the five rules.
pub const BY_HAND: [(&str, Figures, [i64; 5]); 15] = [
    (
        "R|5|4\nD|1|2|2\nD|1|4|5\nD|2|3|9\nD|2|4|11\nD|3|4|4\nD|3|5|3\n",
        (16, 14, 1, "BFFBFF"),
        [16, 19, 19, 19, 19],
    ),
    (
        "R|8|4\nD|1|4|1\nD|2|3|1\nD|5|8|2\nD|6|7|2\n",
        (3, 3, 1, "BFBF"),
        [3, 4, 4, 4, 4],
    ),
    ("R|2|4\n", (0, 0, 1, ""), [0; 5]),
    ("R|2|4\nD|1|2|0\n", (0, 0, 1, "B"), [0; 5]),
    ("R|2|4\nD|1|2|5\n", (5, 3, 1, "B"), [5; 5]),
    ("R|4|4\nD|1|3|1\nD|2|4|1\n", (2, 1, 1, "BF"), [2; 5]),
    // the best choice alone
    (
        "R|9|4\nD|1|5|4\nD|2|7|4\nD|2|8|4\nD|3|7|3\nD|5|7|4\nD|6|8|3\n",
        (11, 11, 2, "FFBBFF"),
        [12, 11, 12, 14, 15],
    ),
    // rule D has the peak too, and is named later
    (
        "R|8|4\nD|1|3|9\nD|4|8|7\nD|6|7|5\nD|6|8|5\n",
        (14, 13, 2, "FFFB"),
        [16, 14, 16, 14, 16],
    ),
    // 17 rows that all cross: there is no best choice, and rule D is below the turns
    (
        "R|34|4\nD|1|18|1\nD|2|19|1\nD|3|20|1\nD|4|21|1\nD|5|22|1\nD|6|23|1\nD|7|24|1\nD|8|25|1\nD|9|26|1\nD|10|27|1\nD|11|28|1\nD|12|29|1\nD|13|30|1\nD|14|31|1\nD|15|32|1\nD|16|33|1\nD|17|34|1\n",
        (9, 9, 4, "FBFBFBFBFBFBFBFBF"),
        [10, NONE, NONE, 9, 9],
    ),
    (
        "R|34|4\nD|1|18|3\nD|2|19|2\nD|3|20|1\nD|4|21|2\nD|5|22|3\nD|6|23|3\nD|7|24|2\nD|8|25|3\nD|9|26|1\nD|10|27|2\nD|11|28|1\nD|12|29|2\nD|12|31|1\nD|13|30|3\nD|14|31|3\nD|15|32|2\nD|16|33|2\nD|17|34|2\n",
        (21, 19, 4, "FBFBFBFBFFFBBFBFBF"),
        [22, NONE, NONE, 21, 22],
    ),
    (
        "R|34|4\nD|1|18|5\nD|2|19|5\nD|3|20|2\nD|4|21|4\nD|5|22|2\nD|6|12|3\nD|6|23|5\nD|7|24|1\nD|8|25|4\nD|9|26|3\nD|10|27|3\nD|11|28|5\nD|12|29|5\nD|13|30|2\nD|14|31|5\nD|15|23|1\nD|15|32|2\nD|16|33|1\nD|17|34|3\n",
        (33, 30, 5, "BFFBFFBFFBFBFFBFFFB"),
        [34, NONE, NONE, 35, 33],
    ),
    // the best choice by lowered rooms alone
    (
        "R|42|4\nD|1|23|4\nD|2|24|4\nD|3|25|5\nD|4|15|4\nD|4|27|2\nD|5|28|4\nD|7|29|5\nD|8|30|4\nD|8|31|1\nD|9|31|2\nD|10|32|3\nD|11|33|2\nD|14|35|4\nD|15|36|1\nD|16|37|1\nD|17|38|1\nD|18|37|1\nD|20|40|5\nD|21|22|5\nD|21|41|2\nD|22|42|4\nD|30|31|1\nD|30|32|5\nD|35|42|3\n",
        (33, 32, 3, "BFBFBFBFBFBBFFBFFBFFBFFF"),
        [34, 34, 33, 38, 35],
    ),
    // three rules tie, the first of them the best choice
    (
        "R|35|4\nD|1|18|1\nD|2|19|1\nD|3|20|1\nD|4|21|1\nD|5|22|1\nD|6|18|1\nD|6|23|1\nD|7|24|1\nD|8|12|1\nD|8|20|1\nD|8|25|1\nD|9|26|1\nD|10|24|1\nD|10|27|1\nD|11|29|1\nD|12|30|1\nD|13|31|1\nD|14|32|1\nD|15|33|1\nD|16|26|1\nD|16|34|1\nD|17|24|1\nD|17|35|1\n",
        (11, 11, 2, "BFBFBFBBFFBFFBBFFBFFBFB"),
        [12, 11, 11, 12, 11],
    ),
    // by lowered rooms the best choice and rule D
    (
        "R|36|4\nD|1|18|1\nD|2|19|1\nD|3|20|1\nD|4|22|1\nD|5|21|1\nD|5|23|1\nD|6|24|1\nD|6|29|1\nD|7|25|1\nD|8|26|1\nD|9|12|1\nD|9|19|1\nD|9|28|1\nD|10|29|1\nD|11|30|1\nD|12|24|1\nD|12|31|1\nD|13|32|1\nD|14|33|1\nD|15|34|1\nD|16|35|1\nD|17|18|1\nD|17|36|1\nD|19|26|1\n",
        (11, 11, 3, "BFBBFFBBFBFFBFBFFBFBFFBF"),
        [12, 12, 11, 12, 11],
    ),
    // rule D by level rooms ties with the best choice by lowered ones
    (
        "R|48|4\nD|1|25|1\nD|2|26|1\nD|2|41|1\nD|3|27|1\nD|4|28|2\nD|5|22|2\nD|5|28|2\nD|5|29|2\nD|6|30|1\nD|7|31|2\nD|7|37|1\nD|8|32|1\nD|9|33|1\nD|10|34|1\nD|11|24|2\nD|11|35|2\nD|12|36|2\nD|13|37|1\nD|14|38|2\nD|15|39|1\nD|16|40|1\nD|17|41|2\nD|18|42|1\nD|19|32|1\nD|19|43|2\nD|20|44|1\nD|21|45|2\nD|22|30|2\nD|22|46|2\nD|23|47|1\nD|24|48|1\nD|27|32|2\nD|27|38|2\nD|30|46|2\n",
        (24, 23, 3, "BFBFBFFFBFBBBBFBFFBFFBFFBBFFBFFFFF"),
        [25, NONE, 24, 24, 25],
    ),
];

pub fn by_hand() -> Outcome {
    for (text, (peak, floor, rule, ways), peaks) in BY_HAND {
        let table = table(text)?;
        let least = least::answer(&table);
        let got = (least.whole.peak, least.floor, least.rule.number());
        same(text, got, (peak, floor, rule))?;
        same(text, letters(&least.whole.ways), ways.to_owned())?;
        let found = RULES.map(|rule| sent(&table, rule).map_or(NONE, |whole| whole.peak));
        same(text, found, peaks)?;
    }
    Ok(())
}

/// The floor is at most every peak, of each rule and of other ways; the answer is one of the
/// rules', at most each and below those that are named before it; by rule D's it is within
/// that bound, and where all rows cross, by the best choice, within the one of these.
fn theorems(rng: &mut Rng, table: &Table) -> Outcome {
    let least = least::answer(table);
    let (peak, floor, m) = (least.whole.peak, least.floor, rules::rule_a(table).across);
    for rule in RULES {
        let Some(whole) = sent(table, rule) else {
            let choice = rule == Rule::Best || rule == Rule::LoweredBest;
            holds("only the best choice may be missing", choice)?;
            continue;
        };
        let of_ways = choice::peak_of(table.n, &table.rows, &whole.ways);
        same("the peak is that of the ways", of_ways, whole.peak)?;
        holds("the floor is at most each peak", floor <= whole.peak)?;
        holds("the least is at most each peak", peak <= whole.peak)?;
        let before = rule.number() < least.rule.number();
        holds(
            "rules before have a higher peak",
            !before || whole.peak > peak,
        )?;
        holds(
            "the ways are the rule's",
            rule != least.rule || whole == least.whole,
        )?;
    }
    let plan = rules::plan(table);
    let largest = rules::largest_split(&table.rows, &plan.sent);
    holds("within rule D's bound", 2 * peak <= m + 3 * largest)?;
    if let Crossing::All(bound) = crossing::answer(table) {
        holds("within the bound where all cross", 2 * peak <= bound)?;
    }
    let ways: Vec<Way> = table
        .rows
        .iter()
        .map(|_| rng.pick(&[Way::F, Way::B]))
        .collect();
    let of_any = choice::peak_of(table.n, &table.rows, &ways);
    holds("no ways are below the floor", floor <= of_any)?;
    holds("the floor is M/2 rounded up", floor == m / 2 + m % 2)
}

/// The least of all ways of sending so few rows.
fn least_of_all(table: &Table) -> i64 {
    let peaks = (0..1_u32 << table.rows.len()).map(|code| {
        let way = |at| if code >> at & 1 == 0 { Way::F } else { Way::B };
        let ways: Vec<Way> = (0..table.rows.len()).map(way).collect();
        rules::peak(&turns::going(table, &table.rows, ways).loads)
    });
    peaks.min().unwrap_or(0)
}

/// Where the floor is reached nothing is lower, and nothing is lower by more than the
/// difference.
fn beside_all(table: &Table) -> Outcome {
    let (least, of_all) = (least::answer(table), least_of_all(table));
    let peak = least.whole.peak;
    holds("no peak is below the least of all", of_all <= peak)?;
    holds("none is below the floor", least.floor <= of_all)?;
    let proved = peak == least.floor;
    holds(
        "what is proved is the least of all",
        !proved || peak == of_all,
    )
}

/// The theorems on random tables, some of them of rows that cross.
pub fn random_theorems(seed: u64) -> Outcome {
    for case in 0..400 {
        let mut rng = Rng::for_case(seed, 8_500, case);
        let table = if case % 8 == 0 {
            let count = rng.between(16, 22) as usize;
            let (n, most) = (rng.between(44, 64), rng.pick(&[1, 3, 40, 9_999]));
            let table = crossed(&mut rng, n, count, most);
            with_others(&mut rng, table, 2, most)
        } else {
            gen::for_theorems(&mut rng, case)
        };
        let mut outcome = theorems(&mut rng, &table);
        if outcome.is_ok() && table.rows.len() <= 8 {
            outcome = beside_all(&table);
        }
        outcome.map_err(|what| {
            let text = barred(&table_text(&table));
            format!("seed {seed}, table {case}: {what}\n{text}")
        })?;
    }
    Ok(())
}
