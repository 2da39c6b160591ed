//! Whole circuits sent one turn at a time, by the library and by the twin: all
//! groups, and what must have been seen in them.

use crate::count::{demands, Count};
use crate::groups::Make;
use crate::kit::Kit;
use crate::part::{Compared, Group, Part, Run};
use crate::rng::Rng;
use crate::turning_groups::TURNING_GROUPS;
use crate::turns::{turn, TurnReply};
use crate::ways_call::{TablesSeen, WaysCall};

const TURN: WaysCall<TurnReply> = WaysCall {
    twin: turn,
    library: Kit::turn,
};

/// What has been counted.
#[derive(Default)]
pub struct TurningTally {
    tables: TablesSeen,
    /// Answers that are no start as it is, and that are a later start's than the first.
    turned: u64,
    later: u64,
}

impl TurningTally {
    fn count(&mut self, text: &[u8], reply: TurnReply) {
        self.tables.count(text, reply.reason, reply.peak);
        self.turned += u64::from(reply.turns > 0);
        self.later += u64::from(reply.link > 1);
    }
}

impl Part for TurningTally {
    type Make = Make;

    const GROUPS: &'static [Group<Make>] = &TURNING_GROUPS;
    const ONE_IN: u64 = 10;
    const FIRST_GROUP: u64 = 6_000;

    /// Of the case the text alone is taken.
    fn case(&mut self, run: Run, group: &Group<Make>, rng: &mut Rng, case: u64) -> Compared {
        let text = (group.make)(rng, case)?.text;
        let compared = TURN.compare(run, &text, case);
        Some(compared.map(|reply| {
            self.count(&text, reply);
            1
        }))
    }

    fn counted(&self) -> Count {
        self.tables.print("one turn at a time");
        let (turned, later) = (self.turned, self.later);
        println!("answers with turns: {turned}, of a later start than the first: {later}");
        let seen = turned > 0 && later > 0;
        let of_tables = demands(&self.tables.demands());
        [of_tables, demands(&[("turns and later starts seen", seen)])]
            .into_iter()
            .sum()
    }
}
