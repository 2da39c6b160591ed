//! What is said of the comparison: of each check and of each demand on the counts
//! whether it is met, and how many are.

use crate::selfcheck::Outcome;
use std::iter::Sum;
use std::process::ExitCode;

/// How many passed, how many failed.
#[derive(Clone, Copy, Default)]
pub struct Count {
    passed: u64,
    failed: u64,
}

impl Count {
    /// Says of one whether it passed.
    pub fn of(good: bool, words: &str) -> Count {
        println!("{}: {words}", if good { "passed" } else { "FAILED" });
        Count {
            passed: u64::from(good),
            failed: u64::from(!good),
        }
    }

    /// The last line, and the exit status.
    pub fn end(self) -> ExitCode {
        println!("{} passed, {} failed", self.passed, self.failed);
        ExitCode::from(u8::from(self.failed > 0))
    }
}

impl Sum for Count {
    fn sum<I: Iterator<Item = Count>>(counts: I) -> Count {
        counts.fold(Count::default(), |all, count| Count {
            passed: all.passed + count.passed,
            failed: all.failed + count.failed,
        })
    }
}

/// Says what must have been counted, and whether it was.
pub fn demands(demands: &[(&str, bool)]) -> Count {
    let said = demands.iter().map(|(name, good)| Count::of(*good, name));
    said.sum()
}

/// Says of each check whether it passed, and else why not.
pub fn outcomes(outcomes: &[(&str, Outcome)]) -> Count {
    let said = outcomes.iter().map(|(name, outcome)| match outcome {
        Ok(()) => Count::of(true, name),
        Err(words) => Count::of(false, &format!("{name}: {words}")),
    });
    said.sum()
}
