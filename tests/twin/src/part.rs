//! How the groups of a part of the comparison are run, whatever their cases are, and
//! what is said of each.

use crate::count::Count;
use crate::kit::Kit;
use crate::rng::Rng;
use std::time::Instant;

/// A part goes on up to so many mismatches, one in a group at most.
const MISMATCHES: usize = 5;

/// A group of cases. A group with share 0 is a list: it runs until it has ended. Any
/// other runs until it has its share, out of what all shares of its part add up to, of
/// the number of random comparisons.
pub struct Group<M> {
    pub name: &'static str,
    pub share: u64,
    /// What its cases are made by.
    pub make: M,
}

pub const fn group<M>(name: &'static str, share: u64, make: M) -> Group<M> {
    Group { name, share, make }
}

/// What the groups are run with: what answers the calls, the seed, how many random
/// comparisons are asked for, and whether a mismatch is to be told in words.
#[derive(Clone, Copy)]
pub struct Run {
    pub kit: Kit,
    pub seed: u64,
    pub count: u64,
    pub describing: bool,
}

/// How many comparisons a case made, or the words of a mismatch; None where the list
/// has ended.
pub type Compared = Option<Result<u64, String>>;

/// A part of the comparison, as it counts what it has seen.
pub trait Part: Default {
    type Make: 'static;

    const GROUPS: &'static [Group<Self::Make>];
    /// Of the random comparisons that are asked for, one in so many is made here.
    const ONE_IN: u64;
    /// Groups of other parts have the numbers before.
    const FIRST_GROUP: u64;

    /// A case of a group.
    fn case(&mut self, run: Run, group: &Group<Self::Make>, rng: &mut Rng, case: u64) -> Compared;

    /// Prints the counts, and says the demands on them.
    fn counted(&self) -> Count;
}

/// How a group ended: a mismatch ends it.
#[derive(Default)]
struct Ended {
    comparisons: u64,
    /// Case number and words of the mismatch.
    mismatch: Option<(u64, String)>,
}

/// The cases of the group at a place.
fn cases<P: Part>(part: &mut P, run: Run, at: usize) -> Ended {
    let group = &P::GROUPS[at];
    let shares: u64 = P::GROUPS.iter().map(|group| group.share).sum();
    let quota = run.count / P::ONE_IN * group.share / shares;
    let mut ended = Ended::default();
    for case in 0.. {
        if group.share > 0 && ended.comparisons >= quota {
            break;
        }
        let mut rng = Rng::for_case(run.seed, P::FIRST_GROUP + at as u64, case);
        match part.case(run, group, &mut rng, case) {
            Some(Ok(comparisons)) => ended.comparisons += comparisons,
            Some(Err(words)) => {
                ended.mismatch = Some((case, words));
                break;
            }
            None => break,
        }
    }
    ended
}

/// Says of all groups of a part whether they passed.
fn groups<P: Part>(part: &mut P, run: Run) -> Count {
    let mut mismatches = 0;
    let mut said = |at: usize| {
        let name = P::GROUPS[at].name;
        if mismatches == MISMATCHES {
            return Count::of(false, &format!("{name}: not run"));
        }
        let start = Instant::now();
        let ended = cases(part, run, at);
        if let Some((case, words)) = &ended.mismatch {
            print!("MISMATCH: seed {}, {name}, case {case}\n{words}", run.seed);
            mismatches += 1;
        }
        let (calls, time) = (ended.comparisons, start.elapsed().as_secs_f64());
        let words = format!("{name}: {calls} comparisons, {time:.1} s");
        Count::of(ended.mismatch.is_none(), &words)
    };
    (0..P::GROUPS.len()).map(&mut said).sum()
}

/// The groups of a part, and its counts behind them.
pub fn part<P: Part>(run: Run) -> Count {
    let mut part = P::default();
    let groups = groups(&mut part, run);
    [groups, part.counted()].into_iter().sum()
}

/// In how many places a part's groups catch a mutant, and how many groups these are;
/// each place is said.
pub fn places<P: Part>(run: Run) -> (usize, usize) {
    let mut places = 0;
    for (at, group) in P::GROUPS.iter().enumerate() {
        if let Some((case, _)) = cases(&mut P::default(), run, at).mismatch {
            println!("    caught by {}, case {case}", group.name);
            places += 1;
        }
    }
    (places, P::GROUPS.len())
}
