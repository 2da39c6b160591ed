//! All groups of the working table against what answers the calls, and what must
//! have been seen in them.

use crate::count::{demands, Count};
use crate::part::{Compared, Group, Part, Run};
use crate::rng::Rng;
use crate::working::ASK_NAMES;
use crate::working_compare::{shrunk, Desk, WorkTally};
use crate::working_groups::{Sequences, WORKING_GROUPS};

/// The reasons of start, add, change, remove, row and write.
const REASONS: [&[usize]; ASK_NAMES.len()] = [
    &[0, 3, 20],
    &[0, 4, 5, 7, 21],
    &[0, 4, 5, 7, 22],
    &[0, 22],
    &[0, 22],
    &[0, 15],
];

impl Part for WorkTally {
    type Make = Sequences;

    const GROUPS: &'static [Group<Sequences>] = &WORKING_GROUPS;
    const ONE_IN: u64 = 3;
    const FIRST_GROUP: u64 = 3_000;

    fn case(&mut self, run: Run, group: &Group<Sequences>, rng: &mut Rng, case: u64) -> Compared {
        if case == group.make.cases {
            return None;
        }
        let before = self.comparisons + self.strange;
        let ring = (group.make.ring)(rng, case);
        let salt = rng.next();
        let mut desk = match Desk::started(run.kit, salt, ring, self) {
            Ok(desk) => desk,
            Err(words) => return Some(Err(words)),
        };
        Some(match (group.make.play)(&mut desk, rng) {
            Ok(()) => Ok(self.comparisons + self.strange - before),
            Err(words) if run.describing => Err(shrunk(run.kit, salt, &desk.asked, words)),
            Err(words) => Err(words),
        })
    }

    fn counted(&self) -> Count {
        let (all, large) = (self.comparisons, self.large);
        println!("working table: {all} comparisons, of these {large} on 16 offices and more");
        for (name, reasons) in ASK_NAMES.iter().zip(&self.reasons) {
            let numbers = reasons.iter().enumerate();
            let given = numbers.filter(|(_, number)| **number > 0);
            let words: Vec<String> = given
                .map(|(at, number)| format!("{at}: {number}"))
                .collect();
            println!("call {name}, by reason: {}", words.join(", "));
        }
        let [of_20, of_64] = self.full;
        println!("calls on full tables of 20 offices: {of_20}, of 64 offices: {of_64}");
        let (routed, strange) = (self.routed, self.strange);
        println!("working tables written and routed: {routed}");
        println!("calls on tables that no calls made: {strange}");
        let each =
            |(given, wanted): (&[u64; 23], &&[usize])| wanted.iter().all(|at| given[*at] > 0);
        demands(&[
            (
                "every reason of every call of the working table seen",
                self.reasons.iter().zip(&REASONS).all(each),
            ),
            (
                "full working tables of 20 and of 64 offices, routed ones and strange ones seen",
                of_20 > 0 && of_64 > 0 && routed > 0 && strange > 0,
            ),
        ])
    }
}
