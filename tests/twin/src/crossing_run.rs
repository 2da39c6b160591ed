//! Whether all circuits cross, by the library and by the twin: all groups, and what must
//! have been seen in them. Where they do, the sheets of both calls of the best choice, as
//! the same library writes them, are held to what is promised of their peak.

use crate::compare::{fewer, shown, written};
use crate::count::{demands, Count};
use crate::crossing::{ask, CrossingReply, ALL_CROSS, MANY};
use crate::crossing_groups::CROSSING_GROUPS;
use crate::gen::lines_of;
use crate::groups::Make;
use crate::kit::Kit;
use crate::limits::{ROWS, SPLIT};
use crate::part::{Compared, Group, Part, Run};
use crate::rng::Rng;
use crate::table::{self, Table};
use crate::twin::Call;

/// The table's reasons, which this call's are.
const REASONS: [u32; 10] = [0, 1, 2, 3, 4, 5, 6, 7, 16, 20];
/// Full rings of so many offices must have been seen.
const FULL: [i64; 3] = [20, 32, 64];

/// What has been counted.
#[derive(Default)]
pub struct CrossingTally {
    comparisons: u64,
    /// Accepted tables of 16 offices and more.
    large: u64,
    reasons: [u64; 21],
    full: [u64; FULL.len()],
    /// Accepted tables that all cross, by how many rows have amounts.
    crossing: [u64; SPLIT + 1],
    /// Those that are too many, of 17 rows with amounts and of more.
    many: [u64; 2],
    /// Pairs: of 17 rows and more with amounts, not of the first row, and with rows of
    /// amount 0 before their second.
    pairs: u64,
    among_many: u64,
    later: u64,
    behind_nothing: u64,
    /// Tables of 1,024 rows, and sheets of the best choice that were held to the bound,
    /// of which rule D's twice peak is above it.
    most: u64,
    sheets: u64,
    above: u64,
}

/// Twice the unsplit peak that a sheet's last line says.
fn twice_peak(sheet: &[u8]) -> i64 {
    let lines = lines_of(sheet);
    let last = lines.last().expect("a sheet has lines");
    let mut fields = last.split(|byte| *byte == b'\t');
    let peak = fields
        .nth(1)
        .and_then(|peak| std::str::from_utf8(peak).ok());
    2 * peak.and_then(|peak| peak.parse::<i64>().ok()).unwrap_or(0)
}

/// What is promised where all cross: neither call refuses, and no peak is above the bound.
/// How many sheets these are.
fn hold_bound(kit: Kit, text: &[u8], bound: u32) -> Result<u64, String> {
    for call in [Call::RouteBest, Call::RouteLoweredBest] {
        let sheet = written(kit, call, text)?;
        let twice = twice_peak(&sheet);
        if twice > i64::from(bound) {
            return Err(format!(
                "  {call:?}: twice the peak is {twice}, above {bound}\n"
            ));
        }
    }
    Ok(2)
}

impl CrossingTally {
    fn count(&mut self, text: &[u8], reply: CrossingReply) {
        self.comparisons += 1;
        self.reasons[reply.reason as usize] += 1;
        if let Ok(table) = table::read(text) {
            self.count_table(&table, reply);
        }
    }

    fn count_table(&mut self, table: &Table, reply: CrossingReply) {
        let (n, rows) = (table.n, &table.rows);
        let counting = rows.iter().filter(|row| row.amount > 0).count();
        self.large += u64::from(n >= 16);
        self.most += u64::from(rows.len() == ROWS);
        let circuits = rows
            .windows(2)
            .any(|two| (two[0].first, two[0].second) == (two[1].first, two[1].second));
        for (size, seen) in FULL.iter().zip(&mut self.full) {
            let all = ROWS.min((n * (n - 1) / 2) as usize);
            *seen += u64::from(n == *size && rows.len() == all && !circuits);
        }
        match reply.kind {
            ALL_CROSS => self.crossing[counting.min(SPLIT)] += 1,
            MANY => self.many[usize::from(counting > SPLIT + 1)] += 1,
            _ => {
                let before = &rows[..reply.second];
                let first = rows.iter().position(|row| row.amount > 0);
                self.pairs += 1;
                self.among_many += u64::from(counting > SPLIT);
                self.later += u64::from(first.is_some_and(|first| first + 1 < reply.first));
                self.behind_nothing += u64::from(before.iter().any(|row| row.amount == 0));
            }
        }
    }

    /// What must have been counted, and whether it was.
    fn demands(&self) -> [(&'static str, bool); 5] {
        let mut reasons = REASONS.iter();
        let pairs = [self.pairs, self.among_many, self.later, self.behind_nothing];
        let all = [&self.crossing[..], &self.many[..]].concat();
        [
            (
                "every reason of a table seen",
                reasons.all(|reason| self.reasons[*reason as usize] > 0),
            ),
            (
                "full rings of 20, 32 and 64 offices, and 1,024 rows, seen",
                self.full.iter().all(|seen| *seen > 0) && self.most > 0,
            ),
            (
                "0 to 16 rows that all cross, 17, and more, seen",
                all.iter().all(|seen| *seen > 0),
            ),
            (
                "pairs among more than 16 rows, of later rows and behind rows of amount 0 seen",
                pairs.iter().all(|seen| *seen > 0),
            ),
            (
                "sheets of the best choice held to the bound, and rule D's above it, seen",
                self.sheets > 0 && self.above > 0,
            ),
        ]
    }

    /// The sheets of a table that all cross: the library's own are held to the bound.
    fn hold(&mut self, kit: Kit, text: &[u8], reply: CrossingReply) -> Result<(), String> {
        if reply.kind != ALL_CROSS {
            return Ok(());
        }
        self.sheets += hold_bound(kit, text, reply.bound)?;
        let by_rule_d = written(kit, Call::Route, text)?;
        self.above += u64::from(twice_peak(&by_rule_d) > i64::from(reply.bound));
        Ok(())
    }
}

/// One call both ways. What both answer, or the words of the difference.
fn compare(kit: Kit, text: &[u8]) -> Result<CrossingReply, String> {
    let mut handed = text.to_vec();
    let by_twin = ask(text);
    let by_kit = kit.crossing(&mut handed);
    if by_twin != by_kit {
        return Err(format!("  twin:    {by_twin:?}\n  library: {by_kit:?}\n"));
    }
    if handed != text {
        return Err("  the call changed the text\n".to_owned());
    }
    Ok(by_twin)
}

/// Fewer lines on which the two still differ, in words.
fn shrunk(kit: Kit, text: &[u8], words: String) -> String {
    let (lines, less) = fewer(lines_of(text), 1, |lines| {
        compare(kit, &lines.concat()).err()
    });
    format!("{}{}", shown(&lines.concat(), 40), less.unwrap_or(words))
}

impl Part for CrossingTally {
    type Make = Make;

    const GROUPS: &'static [Group<Make>] = &CROSSING_GROUPS;
    const ONE_IN: u64 = 10;
    const FIRST_GROUP: u64 = 16_000;

    /// Of the case the text alone is taken.
    fn case(&mut self, run: Run, group: &Group<Make>, rng: &mut Rng, case: u64) -> Compared {
        let text = (group.make)(rng, case)?.text;
        let compared = compare(run.kit, &text);
        Some(match compared {
            Ok(reply) if run.describing => {
                self.count(&text, reply);
                let held = self.hold(run.kit, &text, reply);
                held.map(|()| 1)
                    .map_err(|words| format!("{}{words}", shown(&text, 40)))
            }
            Ok(_) => Ok(1),
            Err(words) if run.describing => Err(shrunk(run.kit, &text, words)),
            Err(words) => Err(words),
        })
    }

    fn counted(&self) -> Count {
        let (all, large) = (self.comparisons, self.large);
        println!(
            "whether circuits cross: {all} comparisons, {large} of accepted tables of 16 offices and more"
        );
        for (reason, seen) in self.reasons.iter().enumerate() {
            if *seen > 0 {
                println!("reason {reason}: {seen}");
            }
        }
        for (n, seen) in FULL.iter().zip(self.full) {
            println!("full rings of {n} offices: {seen}");
        }
        let counts: Vec<String> = self.crossing.iter().map(u64::to_string).collect();
        let [seventeen, more] = self.many;
        println!("tables that all cross, by rows with amounts, 0 to 16: {}, 17: {seventeen}, more: {more}", counts.join(" "));
        let (pairs, among, later, behind) =
            (self.pairs, self.among_many, self.later, self.behind_nothing);
        println!("pairs: {pairs}, among more than 16 rows: {among}, of a later row: {later}, behind a row of amount 0: {behind}");
        let (sheets, above, most) = (self.sheets, self.above, self.most);
        println!("sheets of the best choice held to the bound: {sheets}, rule D's above it: {above}; tables of 1,024 rows: {most}");
        demands(&self.demands())
    }
}
