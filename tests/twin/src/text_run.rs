//! Texts that are read, checked and written, by the library and by the twin: all
//! groups, and what must have been seen in them.

use crate::byte_tally::ByteTally;
use crate::check;
use crate::compare::{compare, describe, shrink, Case};
use crate::count::{demands, Count};
use crate::groups::{Make, GROUPS};
use crate::limits::{OFFICES, ROWS};
use crate::matrix;
use crate::part::{Compared, Group, Part, Run};
use crate::rng::Rng;
use crate::table::{self, Table};
use crate::twin::{self, Answer, Call, Said, CALLS};

/// Reasons 0, which is success, to 20: all must have been seen among the random
/// cases.
const REASONS: usize = 21;
/// What reading a matrix and writing one must have said among the random cases.
const OF_READING: [usize; 10] = [0, 1, 2, 3, 7, 15, 16, 17, 18, 20];
const OF_WRITING: [usize; 12] = [0, 1, 2, 3, 4, 5, 6, 7, 15, 16, 19, 20];
/// The size classes of accepted tables, sheets and matrices, by offices.
const CLASSES: [(i64, i64); 9] = [
    (2, 3),
    (4, 7),
    (8, 15),
    (16, 19),
    (20, 20),
    (21, 31),
    (32, 32),
    (33, 63),
    (64, 64),
];

/// How many accepted texts of a kind there were.
#[derive(Default)]
struct Accepted {
    classes: [u64; CLASSES.len()],
    /// Those that hold every pair of 20, and of 32 offices, and as many pairs of 64 as
    /// there may be rows.
    full: [u64; 3],
    /// Those with rows of the same nodes, and of these those of 1,024 rows.
    circuits: [u64; 2],
}

impl Accepted {
    fn count(&mut self, table: &Table) {
        for (at, (low, high)) in CLASSES.iter().enumerate() {
            self.classes[at] += u64::from(*low <= table.n && table.n <= *high);
        }
        let mut pairs: Vec<_> = table
            .rows
            .iter()
            .map(|row| (row.first, row.second))
            .collect();
        pairs.dedup();
        let circuits = pairs.len() < table.rows.len();
        self.full[0] += u64::from(table.n == 20 && pairs.len() == 190);
        self.full[1] += u64::from(table.n == 32 && pairs.len() == 496);
        self.full[2] += u64::from(table.n == OFFICES && pairs.len() == ROWS);
        self.circuits[0] += u64::from(circuits);
        self.circuits[1] += u64::from(circuits && table.rows.len() == ROWS);
    }

    fn print(&self, what: &str) {
        for ((low, high), number) in CLASSES.iter().zip(self.classes) {
            println!("accepted {what} of {low} to {high} offices: {number}");
        }
        let [of_20, of_32, of_64] = self.full;
        println!("full {what} of 20 offices: {of_20}, of 32: {of_32}, of 64: {of_64}");
    }

    fn print_circuits(&self, what: &str) {
        let [all, most] = self.circuits;
        println!("{what} with rows of the same nodes: {all}, of these {most} of 1,024 rows");
    }
}

/// What has been counted.
#[derive(Default)]
pub struct TextTally {
    comparisons: u64,
    /// Comparisons with a table, sheet or matrix of 16 offices and more.
    large: u64,
    calls: [u64; CALLS.len()],
    reasons: [u64; REASONS],
    /// In random cases, by call.
    random_reasons: [[u64; REASONS]; CALLS.len()],
    tables: Accepted,
    sheets: Accepted,
    matrices: Accepted,
    /// Random accepted sheets with no parallel pair, with one, and with one
    /// that is not the first two rows.
    pairs: [u64; 3],
    bytes: ByteTally,
}

impl TextTally {
    fn count_text(&mut self, case: &Case) {
        if let Ok(table) = table::read(&case.text) {
            self.tables.count(&table);
        }
        if let Ok(sheet) = check::read(&case.text) {
            self.sheets.count(&sheet.table);
        }
        if let Ok(matrix) = matrix::read(&case.text) {
            self.matrices.count(&matrix::table_of(&matrix, 4, 0));
        }
    }

    fn random(&self, reason: usize) -> u64 {
        self.random_reasons
            .iter()
            .map(|of_call| of_call[reason])
            .sum()
    }

    /// Whether a call gave each of these reasons in random cases.
    fn gave(&self, call: Call, reasons: &[usize]) -> bool {
        let given = self.random_reasons[call.place()];
        reasons.iter().all(|reason| given[*reason] > 0)
    }

    /// What must have been counted, and whether it was.
    fn demands(&self, bytes: bool) -> [(&'static str, bool); 6] {
        let [none, _, later] = self.pairs;
        [
            (
                "every reason of 0 to 20 seen in random cases",
                (0..REASONS).all(|reason| self.random(reason) > 0),
            ),
            (
                "every reason of reading a matrix and of writing one seen in random cases",
                self.gave(Call::ReadMatrix(4, 0), &OF_READING)
                    && self.gave(Call::WriteMatrix, &OF_WRITING),
            ),
            (
                "full tables, sheets and matrices of 20, of 32 and of 64 offices seen",
                [&self.tables, &self.sheets, &self.matrices]
                    .iter()
                    .all(|kind| kind.full.iter().all(|full| *full > 0)),
            ),
            (
                "1,024 rows, some of the same nodes, seen in accepted tables and sheets",
                self.tables.circuits[1] > 0 && self.sheets.circuits[1] > 0,
            ),
            (
                "a parallel pair, and none, seen in random accepted sheets",
                none > 0 && later > 0,
            ),
            (
                "bytes of every reason seen on every field of every line, on 16 offices and more",
                bytes,
            ),
        ]
    }

    fn count_said(&mut self, case: &Case, call: Call, said: Said, random: bool) {
        let reason = said.reason() as usize;
        self.comparisons += 1;
        self.large += u64::from(case.offices >= 16);
        self.calls[call.place()] += 1;
        self.reasons[reason] += 1;
        self.random_reasons[call.place()][reason] += u64::from(random);
        self.bytes.count(call, &case.text, said, case.offices >= 16);
        if let (Said::Pair(pair), 0, true) = (said, reason, random) {
            self.pairs[0] += u64::from(pair.first == 0);
            self.pairs[1] += u64::from(pair.first > 0);
            self.pairs[2] += u64::from(pair.second > 2);
        }
    }
}

impl Part for TextTally {
    type Make = Make;

    const GROUPS: &'static [Group<Make>] = &GROUPS;
    const ONE_IN: u64 = 1;
    const FIRST_GROUP: u64 = 0;

    /// All calls of a case up to the first mismatch.
    fn case(&mut self, run: Run, group: &Group<Make>, rng: &mut Rng, number: u64) -> Compared {
        let case = (group.make)(rng, number)?;
        self.count_text(&case);
        let mut answers: Vec<(Call, Answer)> = Vec::new();
        for (at, trial) in case.trials.iter().enumerate() {
            if !answers.iter().any(|(call, _)| *call == trial.0) {
                answers.push((trial.0, twin::answer(trial.0, &case.text)));
            }
            let known = answers.iter().find(|(call, _)| *call == trial.0);
            let (_, answer) = known.expect("an answer");
            let salt = number.wrapping_mul(1_000) + at as u64;
            match compare(run.kit, *trial, &case.text, answer, salt) {
                Ok(said) => self.count_said(&case, trial.0, said, group.share > 0),
                Err(_) if !run.describing => return Some(Err(String::new())),
                Err(mismatch) => {
                    let (text, mismatch) = shrink(run.kit, &case.text, mismatch);
                    return Some(Err(describe(&text, &mismatch)));
                }
            }
        }
        Some(Ok(case.trials.len() as u64))
    }

    fn counted(&self) -> Count {
        let (all, large) = (self.comparisons, self.large);
        println!("comparisons: {all}, of these {large} on 16 offices and more");
        for call in CALLS {
            println!("call {call:?}: {}", self.calls[call.place()]);
        }
        for reason in 0..REASONS {
            let (seen, random) = (self.reasons[reason], self.random(reason));
            println!("reason {reason}: {seen}, of these {random} in random cases");
        }
        self.tables.print("tables");
        self.tables.print_circuits("tables");
        self.sheets.print("sheets");
        self.sheets.print_circuits("sheets");
        self.matrices.print("matrices");
        let [none, some, later] = self.pairs;
        println!("random accepted sheets with no parallel pair: {none}");
        println!("with one: {some}, of these {later} with other than rows 1 and 2");
        demands(&self.demands(self.bytes.print()))
    }
}
