//! One call on the text of a case, with each of the case's buffers, whichever calls these
//! were made for; and what is counted of it.

use crate::compare::{compare, describe, shrink, Case};
use crate::part::Run;
use crate::twin::{self, Answer, Call};

/// What has been counted.
#[derive(Default)]
pub struct Lends {
    comparisons: u64,
    /// Comparisons on 16 offices and more.
    large: u64,
    reasons: [u64; 25],
}

impl Lends {
    /// Makes the call up to the first mismatch, which is given in words. How many calls.
    pub fn compare(
        &mut self,
        run: Run,
        call: Call,
        case: &Case,
        number: u64,
    ) -> Result<u64, String> {
        let answer: Answer = twin::answer(call, &case.text);
        for (at, (_, lend)) in case.trials.iter().enumerate() {
            let salt = number.wrapping_mul(1_000) + at as u64;
            match compare(run.kit, (call, *lend), &case.text, &answer, salt) {
                Ok(said) => {
                    self.comparisons += 1;
                    self.large += u64::from(case.offices >= 16);
                    self.reasons[said.reason() as usize] += 1;
                }
                Err(_) if !run.describing => return Err(String::new()),
                Err(mismatch) => {
                    let (text, mismatch) = shrink(run.kit, &case.text, mismatch);
                    return Err(describe(&text, &mismatch));
                }
            }
        }
        Ok(case.trials.len() as u64)
    }

    /// Whether each of these reasons has been given.
    pub fn saw(&self, reasons: &[usize]) -> bool {
        reasons.iter().all(|reason| self.reasons[*reason] > 0)
    }

    pub fn print(&self, what: &str) {
        let (all, large) = (self.comparisons, self.large);
        println!("{what}: {all} comparisons, {large} on 16 offices and more");
        for (reason, seen) in self.reasons.iter().enumerate() {
            if *seen > 0 {
                println!("reason {reason}: {seen}");
            }
        }
    }
}
