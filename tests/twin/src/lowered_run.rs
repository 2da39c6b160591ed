//! Tables routed by lowered rooms, with rule D and with the best choice, by the library
//! and by the twin: all groups, and what must have been seen in them.

use crate::choice;
use crate::count::{demands, Count};
use crate::groups::Make;
use crate::lends::Lends;
use crate::lowered::{self, SENTENCES};
use crate::lowered_groups::LOWERED_GROUPS;
use crate::part::{Compared, Group, Part, Run};
use crate::rng::Rng;
use crate::rules;
use crate::table::{self, Table};
use crate::twin::Call;

/// The table's own reasons, 15 and 23.
const REASONS: [usize; 12] = [0, 1, 2, 3, 4, 5, 6, 7, 15, 16, 20, 23];
const BOTH: [Call; 2] = [Call::RouteLowered, Call::RouteLoweredBest];

/// What has been counted.
#[derive(Default)]
pub struct LoweredTally {
    lends: Lends,
    /// Tables with a load below that of level rooms, and of these such as have an unsplit
    /// peak below and above.
    lighter: u64,
    lower: u64,
    higher: u64,
    /// Tables with no split row, with one, and with more.
    split: [u64; 3],
}

impl LoweredTally {
    fn count_table(&mut self, table: &Table) {
        let (plan, full) = (lowered::plan(table), rules::plan(table));
        let mut loads = plan.split.iter().zip(&full.split);
        self.lighter += u64::from(loads.any(|(load, full)| load < full));
        self.lower += u64::from(plan.peak < full.peak);
        self.higher += u64::from(plan.peak > full.peak);
        let split = choice::split_count(&lowered::left(table, &SENTENCES));
        self.split[split.min(2)] += 1;
    }

    /// What must have been counted, and whether it was.
    fn demands(&self) -> [(&'static str, bool); 3] {
        [
            (
                "every reason of a table, 15 and 23 seen",
                self.lends.saw(&REASONS),
            ),
            (
                "tables of no, one and more split rows seen",
                self.split.iter().all(|seen| *seen > 0),
            ),
            (
                "lighter links, and lower and higher unsplit peaks than by level rooms, seen",
                self.lighter > 0 && self.lower > 0 && self.higher > 0,
            ),
        ]
    }
}

impl Part for LoweredTally {
    type Make = Make;

    const GROUPS: &'static [Group<Make>] = &LOWERED_GROUPS;
    const ONE_IN: u64 = 10;
    const FIRST_GROUP: u64 = 9_000;

    /// Both calls of a case up to the first mismatch.
    fn case(&mut self, run: Run, group: &Group<Make>, rng: &mut Rng, number: u64) -> Compared {
        let case = (group.make)(rng, number)?;
        if let (true, Ok(table)) = (run.describing, table::read(&case.text)) {
            self.count_table(&table);
        }
        let mut compared = 0;
        for call in BOTH {
            match self.lends.compare(run, call, &case, number) {
                Ok(more) => compared += more,
                Err(words) => return Some(Err(words)),
            }
        }
        Some(Ok(compared))
    }

    fn counted(&self) -> Count {
        self.lends.print("lowered rooms");
        let [none, one, more] = self.split;
        println!("tables with no split row: {none}, with one: {one}, with more: {more}");
        let (lighter, lower, higher) = (self.lighter, self.lower, self.higher);
        println!("with a lighter link than by level rooms: {lighter}, with a lower unsplit peak: {lower}, with a higher one: {higher}");
        demands(&self.demands())
    }
}
