//! Sheets that are held as values, judged by the library and by the twin: all
//! groups, and what must have been seen in them.

use crate::check::Finding;
use crate::compare::fewer;
use crate::count::{demands, Count};
use crate::judging_groups::{Changed, JUDGING_GROUPS};
use crate::kit::Kit;
use crate::limits::ROWS;
use crate::part::{Compared, Group, Part, Run};
use crate::rng::Rng;
use crate::values::{self, HeldRow, Values};

/// Reasons, each with whether it names a place.
const FOUND: [(u32, bool); 16] = [
    (0, false),
    (3, false),
    (20, false),
    (4, true),
    (5, true),
    (6, true),
    (16, true),
    (7, true),
    (8, true),
    (9, true),
    (10, false),
    (11, false),
    (11, true),
    (12, false),
    (13, false),
    (14, false),
];

/// What has been counted.
#[derive(Default)]
pub struct JudgingTally {
    comparisons: u64,
    /// Comparisons on rings of 16 offices and more.
    large: u64,
    /// By reason, without a place and with one.
    reasons: [[u64; 2]; 21],
    /// Rings of 20 and of 32 offices with a row for every pair, and of 64 with as many
    /// rows as there may be, accepted.
    full: [u64; 3],
    /// Values with more rows than that, and with another count of links than n.
    many: u64,
    odd: u64,
}

impl JudgingTally {
    fn count(&mut self, values: &Values, finding: Finding) {
        self.comparisons += 1;
        self.large += u64::from((16..=64).contains(&values.n));
        self.reasons[finding.reason as usize][usize::from(finding.place > 0)] += 1;
        let accepted = finding.reason == 0;
        self.full[0] += u64::from(accepted && values.n == 20 && values.rows.len() >= 190);
        self.full[1] += u64::from(accepted && values.n == 32 && values.rows.len() >= 496);
        self.full[2] += u64::from(accepted && values.n == 64 && values.rows.len() == ROWS);
        self.many += u64::from(values.rows.len() > ROWS);
        self.odd += u64::from(values.links.len() != values.n as usize);
    }

    fn seen(&self, (reason, place): (u32, bool)) -> bool {
        self.reasons[reason as usize][usize::from(place)] > 0
    }
}

/// One call both ways. What both find, or the words of the difference.
fn compare(kit: Kit, values: &Values) -> Result<Finding, String> {
    let by_twin = values::judge(values);
    let mut handed = values.clone();
    let by_kit = kit.judge(&mut handed);
    if by_twin != by_kit {
        return Err(format!("  twin:    {by_twin:?}\n  library: {by_kit:?}\n"));
    }
    if handed != *values {
        return Err("  the call changed the values\n".to_owned());
    }
    Ok(by_twin)
}

/// Fewer rows on which the two still differ, in words.
fn shrunk(kit: Kit, values: &Values, words: String) -> String {
    let with = |rows: &[HeldRow]| Values {
        rows: rows.to_vec(),
        ..values.clone()
    };
    let (rows, less) = fewer(values.rows.clone(), 0, |rows| {
        compare(kit, &with(rows)).err()
    });
    let shown = with(&rows[..rows.len().min(40)]);
    format!("  {shown:?}\n{}", less.unwrap_or(words))
}

impl Part for JudgingTally {
    type Make = Changed;

    const GROUPS: &'static [Group<Changed>] = &JUDGING_GROUPS;
    const ONE_IN: u64 = 3;
    const FIRST_GROUP: u64 = 4_000;

    fn case(&mut self, run: Run, group: &Group<Changed>, rng: &mut Rng, case: u64) -> Compared {
        let Some(values) = group.make.values(rng, case)? else {
            return Some(Ok(0));
        };
        Some(match compare(run.kit, &values) {
            Ok(finding) => {
                self.count(&values, finding);
                Ok(1)
            }
            Err(words) if run.describing => Err(shrunk(run.kit, &values, words)),
            Err(words) => Err(words),
        })
    }

    fn counted(&self) -> Count {
        let (all, large) = (self.comparisons, self.large);
        println!("judging values: {all} comparisons, of these {large} on 16 offices and more");
        for (reason, [none, some]) in self.reasons.iter().enumerate() {
            if none + some > 0 {
                println!("found {reason}: {none} with no place, {some} with one");
            }
        }
        let [of_20, of_32, of_64] = self.full;
        println!("accepted full rings of 20 offices: {of_20}, of 32: {of_32}, of 64: {of_64}");
        let (many, odd) = (self.many, self.odd);
        println!("of more than 1,024 rows: {many}, of another count of links: {odd}");
        demands(&[
            (
                "every reason of judging seen, 11 without a place and with one",
                FOUND.iter().all(|found| self.seen(*found)),
            ),
            (
                "full rings of 20, of 32 and of 64 offices, too many rows and odd counts of links seen",
                of_20 > 0 && of_32 > 0 && of_64 > 0 && many > 0 && odd > 0,
            ),
        ])
    }
}
