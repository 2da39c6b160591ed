//! Tables routed by the best choice, by the library and by the twin: all groups, and
//! what must have been seen in them.

use crate::choice::{self, better, Sentences, SENTENCES};
use crate::choice_groups::CHOICE_GROUPS;
use crate::count::{demands, Count};
use crate::groups::Make;
use crate::lends::Lends;
use crate::limits::SPLIT;
use crate::part::{Compared, Group, Part, Run};
use crate::rng::Rng;
use crate::rules;
use crate::table::{self, Table};
use crate::twin::Call;

/// The table's own reasons, and what this call gives besides.
const REASONS: [usize; 12] = [0, 1, 2, 3, 4, 5, 6, 7, 15, 16, 20, 23];
/// Of tables with so many split rows and fewer it is asked what the ties decide.
const FEW: usize = 8;

/// What has been counted.
#[derive(Default)]
pub struct ChoiceTally {
    lends: Lends,
    /// Accepted tables by their split rows, all of more than there may be as one.
    split: [u64; SPLIT + 2],
    /// Tables of which rule D has a higher peak, and the same peak by other ways.
    lower: u64,
    other: u64,
    /// Tables of few split rows on which the count of rows turned back decides, and on
    /// which what goes F at the first difference does.
    by_count: u64,
    by_first: u64,
}

/// The answer where ties of one kind are decided otherwise: by the count not at all, or
/// for what goes B at the first difference.
const NO_COUNT: Sentences = Sentences {
    better: |new, best| {
        new.peak < best.peak || new.peak == best.peak && choice::front_first(&new.ways, &best.ways)
    },
    ..SENTENCES
};
const BACK_FIRST: Sentences = Sentences {
    better: |new, best| {
        let same = new.peak == best.peak && choice::back(&new.ways) == choice::back(&best.ways);
        if same {
            choice::front_first(&best.ways, &new.ways)
        } else {
            better(new, best)
        }
    },
    ..SENTENCES
};

impl ChoiceTally {
    fn count_table(&mut self, table: &Table) {
        let left = choice::left(table);
        let split = choice::split_count(&left);
        self.split[split.min(SPLIT + 1)] += 1;
        if split > FEW {
            return;
        }
        let ways = choice::best(&left, &SENTENCES);
        self.by_count += u64::from(choice::best(&left, &NO_COUNT) != ways);
        self.by_first += u64::from(choice::best(&left, &BACK_FIRST) != ways);
        let by_rule_d = rules::rule_d(&table.rows, &left.sent);
        let ways = choice::together(&left.sent, &ways, &SENTENCES);
        let lower = choice::peak(&left, &ways) < choice::peak(&left, &by_rule_d);
        self.lower += u64::from(lower);
        self.other += u64::from(!lower && ways != by_rule_d);
    }

    /// What must have been counted, and whether it was.
    fn demands(&self) -> [(&'static str, bool); 4] {
        [
            (
                "every reason of a table, 15 and 23 seen",
                self.lends.saw(&REASONS),
            ),
            (
                "every number of split rows from 0 to 16 seen, and more",
                self.split.iter().all(|seen| *seen > 0),
            ),
            (
                "peaks below rule D's, and other ways with its peak, seen",
                self.lower > 0 && self.other > 0,
            ),
            (
                "ties that the count decides, and that the first difference does, seen",
                self.by_count > 0 && self.by_first > 0,
            ),
        ]
    }
}

impl Part for ChoiceTally {
    type Make = Make;

    const GROUPS: &'static [Group<Make>] = &CHOICE_GROUPS;
    const ONE_IN: u64 = 10;
    const FIRST_GROUP: u64 = 8_000;

    /// All calls of a case up to the first mismatch, whichever calls its group makes
    /// elsewhere.
    fn case(&mut self, run: Run, group: &Group<Make>, rng: &mut Rng, number: u64) -> Compared {
        let case = (group.make)(rng, number)?;
        if let (true, Ok(table)) = (run.describing, table::read(&case.text)) {
            self.count_table(&table);
        }
        Some(self.lends.compare(run, Call::RouteBest, &case, number))
    }

    fn counted(&self) -> Count {
        self.lends.print("the best choice");
        let counts = self.split.iter().map(|seen| seen.to_string());
        let counts: Vec<String> = counts.collect();
        println!(
            "tables by split rows, 0 to 16 and more: {}",
            counts.join(" ")
        );
        let (lower, other) = (self.lower, self.other);
        println!(
            "of few split rows, below rule D's peak: {lower}, its peak by other ways: {other}"
        );
        let (by_count, by_first) = (self.by_count, self.by_first);
        println!("decided by the count: {by_count}, by the first difference: {by_first}");
        demands(&self.demands())
    }
}
