//! The two calls that read a table and write ways, one turn at a time and the least, by the
//! library and by the twin: how one call is compared, and what is counted of its tables.

use crate::compare::{fewer, pattern, shown, GUARD};
use crate::gen::lines_of;
use crate::kit::Kit;
use crate::part::Run;
use crate::rules;
use crate::table::{self, Row, Table};
use crate::turns::WAYS;
use std::fmt::Debug;
use std::ops::Range;

/// The table's reasons, which these calls' are.
const REASONS: [usize; 10] = [0, 1, 2, 3, 4, 5, 6, 7, 16, 20];
/// Full rings of so many offices must have been seen.
const FULL: [i64; 5] = [8, 16, 20, 32, 64];

/// One of the two: what the twin answers, and what the library does of the lent ways that
/// are a part of an area.
pub struct WaysCall<R> {
    pub twin: fn(&[u8], &mut [u8]) -> R,
    pub library: fn(Kit, &mut [u8], &mut [u8], Range<usize>) -> R,
}

impl<R: PartialEq + Debug> WaysCall<R> {
    /// One call both ways. What both answer, or the words of the difference.
    fn both(&self, kit: Kit, text: &[u8], salt: u64) -> Result<R, String> {
        let mut expected = pattern(WAYS + 2 * GUARD, salt);
        let mut got = expected.clone();
        let mut handed = text.to_vec();
        let lent = GUARD..GUARD + WAYS;
        let by_twin = (self.twin)(text, &mut expected[lent.clone()]);
        let by_kit = (self.library)(kit, &mut handed, &mut got, lent);
        if by_twin != by_kit {
            return Err(format!("  twin:    {by_twin:?}\n  library: {by_kit:?}\n"));
        }
        if let Some(at) = (0..got.len()).find(|at| got[*at] != expected[*at]) {
            let place = at as i64 - GUARD as i64;
            let (twin, kit) = (expected[at], got[at]);
            return Err(format!(
                "  {by_twin:?}\n  way {place} (from 0): {twin} of the twin, {kit} of the library\n"
            ));
        }
        if handed != text {
            return Err("  the call changed the text\n".to_owned());
        }
        Ok(by_twin)
    }

    /// The same; where it is to be told in words, on fewer lines on which the two still
    /// differ.
    pub fn compare(&self, run: Run, text: &[u8], salt: u64) -> Result<R, String> {
        let found = self.both(run.kit, text, salt);
        match found {
            Err(words) if run.describing => {
                let (lines, less) = fewer(lines_of(text), 1, |lines| {
                    self.both(run.kit, &lines.concat(), salt).err()
                });
                let text = shown(&lines.concat(), 40);
                Err(format!("{text}{}", less.unwrap_or(words)))
            }
            found => found,
        }
    }
}

/// What has been counted of the tables, whichever call took them.
#[derive(Default)]
pub struct TablesSeen {
    comparisons: u64,
    /// Accepted tables of 16 offices and more.
    large: u64,
    reasons: [u64; 21],
    full: [u64; FULL.len()],
    /// Accepted tables with rows of the same two offices, with rows of amount 0, and
    /// of 1,024 rows.
    circuits: u64,
    nothing: u64,
    most: u64,
    /// Answers that the floor proves to be the best, and that it does not.
    proved: u64,
    open: u64,
}

impl TablesSeen {
    /// The table, where the text is one.
    pub fn count(&mut self, text: &[u8], reason: u32, peak: u32) -> Option<Table> {
        self.comparisons += 1;
        self.reasons[reason as usize] += 1;
        let table = table::read(text).ok()?;
        self.count_table(&table, peak);
        Some(table)
    }

    fn count_table(&mut self, table: &Table, peak: u32) {
        let (n, rows) = (table.n, &table.rows);
        let same = |two: &[Row]| (two[0].first, two[0].second) == (two[1].first, two[1].second);
        let proved = i64::from(peak) == (rules::rule_a(table).across + 1) / 2;
        let circuits = rows.windows(2).any(same);
        for (size, seen) in FULL.iter().zip(&mut self.full) {
            let all = WAYS.min((n * (n - 1) / 2) as usize);
            *seen += u64::from(n == *size && rows.len() == all && !circuits);
        }
        self.large += u64::from(n >= 16);
        self.circuits += u64::from(circuits);
        self.nothing += u64::from(rows.iter().any(|row| row.amount == 0));
        self.most += u64::from(rows.len() == WAYS);
        self.proved += u64::from(proved);
        self.open += u64::from(!proved);
    }

    /// What must have been counted, and whether it was.
    pub fn demands(&self) -> [(&'static str, bool); 4] {
        let mut reasons = REASONS.iter();
        [
            (
                "every reason of a table seen",
                reasons.all(|reason| self.reasons[*reason] > 0),
            ),
            (
                "full rings of 8, 16, 20, 32 and 64 offices seen",
                self.full.iter().all(|seen| *seen > 0),
            ),
            (
                "rows of the same offices, of amount 0, and 1,024 rows seen",
                self.circuits > 0 && self.nothing > 0 && self.most > 0,
            ),
            (
                "peaks that are proved best and that are not seen",
                self.proved > 0 && self.open > 0,
            ),
        ]
    }

    pub fn print(&self, what: &str) {
        let (all, large) = (self.comparisons, self.large);
        println!("{what}: {all} comparisons, {large} of accepted tables of 16 offices and more");
        for (reason, seen) in self.reasons.iter().enumerate() {
            if *seen > 0 {
                println!("reason {reason}: {seen}");
            }
        }
        for (n, seen) in FULL.iter().zip(self.full) {
            println!("full rings of {n} offices: {seen}");
        }
        let (circuits, nothing, most) = (self.circuits, self.nothing, self.most);
        println!("accepted with rows of the same offices: {circuits}, of amount 0: {nothing}, of 1,024 rows: {most}");
        let (proved, open) = (self.proved, self.open);
        println!("answers that are proved best: {proved}, that are not: {open}");
    }
}
