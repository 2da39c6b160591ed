//! The least of five rules, by the library and by the twin: all groups, and what must have
//! been seen in them. Where the library says that all circuits cross, its least peak is held
//! to the bound that it says.

use crate::compare::shown;
use crate::count::{demands, Count};
use crate::crossing::ALL_CROSS;
use crate::groups::Make;
use crate::kit::Kit;
use crate::least::{least, sent, LeastReply, Rule, RULES};
use crate::least_groups::LEAST_GROUPS;
use crate::part::{Compared, Group, Part, Run};
use crate::rng::Rng;
use crate::table::Table;
use crate::ways_call::{TablesSeen, WaysCall};

const LEAST: WaysCall<LeastReply> = WaysCall {
    twin: least,
    library: Kit::least,
};

/// Of the first so many cases of a group it is asked what each rule comes to, where the
/// table has few rows.
const FIRST: u64 = 20;
const FEW: usize = 60;

/// What has been counted.
#[derive(Default)]
pub struct LeastTally {
    tables: TablesSeen,
    /// Tables by the rule that has the least peak alone, and by two rules that have it, of
    /// which the first is the answer's.
    alone: [u64; RULES.len()],
    tied: [[u64; RULES.len()]; RULES.len()],
    /// Tables with no best choice: by level rooms, by lowered ones, and by both.
    no_choice: [u64; 3],
    /// Tables that all cross, whose least peak was held to the bound.
    bounded: u64,
}

impl LeastTally {
    fn count(&mut self, text: &[u8], reply: LeastReply, case: u64) {
        let table = self.tables.count(text, reply.reason, reply.peak);
        let asked = |table: &Table| case < FIRST && table.rows.len() <= FEW;
        if let Some(table) = table.filter(asked) {
            self.count_rules(&table, i64::from(reply.peak));
        }
    }

    /// What is promised where all circuits cross: twice the peak is at most the bound.
    fn hold(&mut self, kit: Kit, text: &[u8], reply: LeastReply) -> Result<(), String> {
        let asked = kit.crossing(&mut text.to_vec());
        if asked.kind != ALL_CROSS {
            return Ok(());
        }
        self.bounded += 1;
        let (twice, bound) = (2 * reply.peak, asked.bound);
        if twice <= bound {
            return Ok(());
        }
        let text = shown(text, 40);
        Err(format!(
            "{text}  twice the peak is {twice}, above {bound}\n"
        ))
    }

    fn count_rules(&mut self, table: &Table, least: i64) {
        let peaks = RULES.map(|rule| sent(table, rule).map(|whole| whole.peak));
        let ties = (0..RULES.len()).filter(|at| peaks[*at] == Some(least));
        match *ties.collect::<Vec<_>>() {
            [alone] => self.alone[alone] += 1,
            [first, ref others @ ..] => {
                for other in others {
                    self.tied[first][*other] += 1;
                }
            }
            [] => (),
        }
        let none = |rule: Rule| peaks[rule.number() as usize - 1].is_none();
        match (none(Rule::Best), none(Rule::LoweredBest)) {
            (true, true) => self.no_choice[2] += 1,
            (true, false) => self.no_choice[0] += 1,
            (false, true) => self.no_choice[1] += 1,
            (false, false) => (),
        }
    }

    /// Each two rules, the first before the second.
    fn each_tie(&self) -> impl Iterator<Item = u64> + '_ {
        let rows = self.tied.iter().enumerate();
        rows.flat_map(|(first, row)| row[first + 1..].iter().copied())
    }

    /// What must have been counted, and whether it was.
    fn demands(&self) -> [(&'static str, bool); 4] {
        [
            (
                "each rule the least alone seen",
                self.alone.iter().all(|seen| *seen > 0),
            ),
            (
                "ties of each two rules seen",
                self.each_tie().all(|seen| seen > 0),
            ),
            (
                "tables with no best choice by level rooms, by lowered ones and by both seen",
                self.no_choice.iter().all(|seen| *seen > 0),
            ),
            (
                "tables that all cross held to the bound seen",
                self.bounded > 0,
            ),
        ]
    }
}

impl Part for LeastTally {
    type Make = Make;

    const GROUPS: &'static [Group<Make>] = &LEAST_GROUPS;
    const ONE_IN: u64 = 40;
    const FIRST_GROUP: u64 = 11_000;

    /// Of the case the text alone is taken.
    fn case(&mut self, run: Run, group: &Group<Make>, rng: &mut Rng, case: u64) -> Compared {
        let text = (group.make)(rng, case)?.text;
        let compared = LEAST.compare(run, &text, case);
        Some(compared.and_then(|reply| {
            if run.describing {
                self.count(&text, reply, case);
                self.hold(run.kit, &text, reply)?;
            }
            Ok(1)
        }))
    }

    fn counted(&self) -> Count {
        self.tables.print("the least");
        println!("the least alone, by rule: {:?}", self.alone);
        let ties: Vec<u64> = self.each_tie().collect();
        println!("ties of each two rules: {ties:?}");
        let [level, lowered, both] = self.no_choice;
        println!("with no best choice by level rooms: {level}, by lowered ones: {lowered}, by both: {both}");
        println!("that all cross, held to the bound: {}", self.bounded);
        [demands(&self.tables.demands()), demands(&self.demands())]
            .into_iter()
            .sum()
    }
}
