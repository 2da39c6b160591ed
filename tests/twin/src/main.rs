//! The twin: ring routing, the checking of sheets and the reading and writing of
//! matrices written once more from the rules alone, as docs/RULES.md has them,
//! the working table and reports over many plans among them, and compared with the library
//! call by call and byte by byte.
//!
//! `twin [SEED [COUNT]]` compares: the lists in full and COUNT random
//! comparisons. The exit status is 0 only when nothing failed.
//!
//! Two modes show that the comparison itself is good. `twin --mutants [SEED
//! [COUNT]]` lists which faults it catches, and where. `twin --mutant K [SEED
//! [COUNT]]` puts the K-th fault in the library's place, from 1. Built with
//! `--cfg mock` and no library, the twin stands in for the library. Built with
//! `--cfg remote`, it asks a process that has the library.
//!
//! `twin --working [SEED [COUNT]]` compares the working table alone, and `twin
//! --working-mutants [SEED [COUNT]]` lists which of its faults are caught; `twin
//! --byte-mutants` does so of the faults of the byte that goes with a refusal, and
//! `twin --family-mutants` of those of the families of line sizes.
//!
//! `twin --judging [SEED [COUNT]]` compares the judging of values alone, and `twin
//! --judging-mutants [SEED [COUNT]]` lists which of its faults are caught; `twin
//! --turning` and `twin --turning-mutants` do so of sending circuits one turn at a time,
//! `twin --choosing` and `twin --choosing-mutants` of the best choice, `twin --lowering`
//! and `twin --lowering-mutants` of lowered rooms, `twin --crossing` and `twin
//! --crossing-mutants` of whether circuits cross, `twin --least` and `twin --least-mutants`
//! of the least of five rules, and `twin --reporting` and `twin --reporting-mutants` of
//! reports.
//!
//! `twin --cases` answers the stored cases given on standard input by itself,
//! without the library, so that its reading is compared with the one that wrote
//! their answers; `twin --judged` judges the stored values given there, `twin --turned`
//! sends the circuits of the stored tables one turn at a time, `twin --leasts` by the rule
//! that comes to the least peak, and `twin --crossed` says of others whether their circuits
//! cross.

mod bars;
mod byte_faults;
mod byte_groups;
mod byte_selfcheck;
mod byte_tally;
mod check;
mod checking_faults;
mod choice;
mod choice_faults;
mod choice_groups;
mod choice_run;
mod choice_selfcheck;
mod compare;
mod count;
mod crossing;
mod crossing_faults;
mod crossing_groups;
mod crossing_run;
mod crossing_selfcheck;
mod family;
mod family_faults;
mod foreign;
mod gen;
mod groups;
mod judging_faults;
mod judging_groups;
mod judging_run;
mod judging_selfcheck;
mod kit;
mod least;
mod least_faults;
mod least_groups;
mod least_run;
mod least_selfcheck;
mod lends;
mod limits;
mod lowered;
mod lowered_faults;
mod lowered_groups;
mod lowered_run;
mod lowered_selfcheck;
mod matrices;
mod matrix;
mod matrix_faults;
mod matrix_selfcheck;
mod mutant;
mod part;
#[cfg(remote)]
mod remote;
mod report;
mod report_faults;
mod report_groups;
mod report_run;
mod report_selfcheck;
mod rng;
mod round_trips;
mod row_faults;
mod rules;
mod selfcheck;
mod shape;
mod sheet;
mod sheets;
mod stored;
mod table;
mod text_faults;
mod text_run;
mod turning_faults;
mod turning_groups;
mod turning_run;
mod turning_selfcheck;
mod turns;
mod twin;
mod values;
mod ways_call;
mod working;
mod working_bytes;
mod working_compare;
mod working_faults;
mod working_groups;
mod working_run;
mod working_selfcheck;
mod working_stand_in;

use choice_run::ChoiceTally;
use count::{outcomes, Count};
use crossing_run::CrossingTally;
use judging_run::JudgingTally;
use kit::Kit;
use least_run::LeastTally;
use lowered_run::LoweredTally;
use mutant::{faults, same, Mutant};
use part::{part, Run};
use report_run::ReportTally;
use std::process::ExitCode;
use text_run::TextTally;
use turning_run::TurningTally;
use working_compare::WorkTally;

const SEED: u64 = 20_010_496;
const COUNT: u64 = 129_000;
const MUTANT_COUNT: u64 = 15_480;

/// What the twin shows of its readers, writers and rules by itself.
fn self_checks_of_texts(seed: u64) -> Count {
    outcomes(&[
        ("self-check: the square", selfcheck::square()),
        ("self-check: the ring of five", selfcheck::ring_of_five()),
        ("self-check: the ring of eight", selfcheck::ring_of_eight()),
        ("self-check: small rings", selfcheck::small_rings()),
        ("self-check: families", selfcheck::families()),
        ("self-check: refusals", selfcheck::refusals()),
        ("self-check: sheets", selfcheck::sheets()),
        ("self-check: circuits", selfcheck::circuits()),
        ("self-check: matrices", matrix_selfcheck::matrices()),
        ("self-check: sums", matrix_selfcheck::sums()),
        ("self-check: bytes", byte_selfcheck::by_hand()),
        ("self-check: ends of lines", byte_selfcheck::by_ends(seed)),
        ("self-check: judging values", judging_selfcheck::by_hand()),
        (
            "self-check: reading, then judging",
            judging_selfcheck::random_texts(seed),
        ),
        ("self-check: working table", working_selfcheck::square()),
        ("self-check: full working table", working_selfcheck::full()),
        ("self-check: theorems", selfcheck::random_theorems(seed)),
    ])
}

/// What the twin shows of turns, the best choice, lowered rooms, whether circuits cross, the
/// least of five rules and reports by itself.
fn self_checks_of_plans(seed: u64) -> Count {
    outcomes(&[
        (
            "self-check: one turn at a time",
            turning_selfcheck::by_hand(),
        ),
        (
            "self-check: theorems of one turn at a time",
            turning_selfcheck::random_theorems(seed),
        ),
        ("self-check: the best choice", choice_selfcheck::by_hand()),
        (
            "self-check: theorems of the best choice",
            choice_selfcheck::random_theorems(seed),
        ),
        ("self-check: lowered rooms", lowered_selfcheck::by_hand()),
        (
            "self-check: theorems of lowered rooms",
            lowered_selfcheck::random_theorems(seed),
        ),
        (
            "self-check: whether circuits cross",
            crossing_selfcheck::by_hand(),
        ),
        (
            "self-check: theorems of circuits that cross",
            crossing_selfcheck::random_theorems(seed),
        ),
        ("self-check: the least", least_selfcheck::by_hand()),
        (
            "self-check: theorems of the least",
            least_selfcheck::random_theorems(seed),
        ),
        ("self-check: reports", report_selfcheck::by_hand()),
        (
            "self-check: damage to a text of many plans",
            report_selfcheck::random_damage(seed),
        ),
    ])
}

/// What the library's calls make of each other's texts.
fn ways_there_and_back(kit: Kit, seed: u64) -> Count {
    outcomes(&[
        (
            "matrix to table to matrix",
            round_trips::of_matrices(kit, seed),
        ),
        (
            "table to matrix to table",
            round_trips::of_tables(kit, seed),
        ),
    ])
}

/// Whether a mutant is of the kind that is asked for.
type Kind = fn(&Mutant) -> bool;

/// In how many places a mutant is caught, and how many groups there are for it.
fn places(mutant: &'static Mutant, seed: u64, count: u64) -> (usize, usize) {
    let run = Run {
        kit: Kit::Mutant(mutant),
        seed,
        count,
        describing: false,
    };
    if mutant.of_working() {
        part::places::<WorkTally>(run)
    } else if mutant.of_judging() {
        part::places::<JudgingTally>(run)
    } else if mutant.of_turning() {
        part::places::<TurningTally>(run)
    } else if mutant.of_choosing() {
        part::places::<ChoiceTally>(run)
    } else if mutant.of_lowering() {
        part::places::<LoweredTally>(run)
    } else if mutant.of_crossing() {
        part::places::<CrossingTally>(run)
    } else if mutant.of_least() {
        part::places::<LeastTally>(run)
    } else if mutant.of_reporting() {
        part::places::<ReportTally>(run)
    } else {
        part::places::<TextTally>(run)
    }
}

/// How many of the faults asked for are caught, and where.
fn caught(seed: u64, count: u64, asked: Kind) -> usize {
    let mut caught = 0;
    for (at, mutant) in faults().into_iter().enumerate() {
        if !asked(mutant) {
            continue;
        }
        println!("{}. {}", at + 1, mutant.name);
        let (places, groups) = places(mutant, seed, count);
        let word = if places > 0 { "caught" } else { "MISSED" };
        println!("    {word}: {places} of {groups} groups");
        caught += usize::from(places > 0);
    }
    caught
}

/// How many of the changes asked for come to the same: no group tells them apart.
fn never_different(seed: u64, count: u64, asked: Kind) -> usize {
    let mut equal = 0;
    for mutant in same().into_iter().filter(|mutant| asked(mutant)) {
        println!("comes to the same: {}", mutant.name);
        let (places, _) = places(mutant, seed, count);
        let word = if places == 0 {
            "never differs"
        } else {
            "DIFFERS"
        };
        println!("    {word}");
        equal += usize::from(places == 0);
    }
    equal
}

/// Which faults of a kind are caught, and where; `of` names the kind behind the word, and
/// is empty where all are asked for. True when all are caught, and when what comes to
/// the same never differs.
fn mutants(seed: u64, count: u64, of: &str, asked: Kind) -> bool {
    let all = faults().iter().filter(|fault| asked(fault)).count();
    let all_same = same().iter().filter(|mutant| asked(mutant)).count();
    let caught = caught(seed, count, asked);
    let equal = never_different(seed, count, asked);
    println!("{caught} of {all} faults{of} caught, {equal} of {all_same} come to the same");
    caught == all && equal == all_same
}

/// What the arguments ask for: a mode, and numbers.
struct Asked {
    mode: String,
    kit: Kit,
    seed: u64,
    count: Option<u64>,
}

const MODES: [&str; 24] = [
    "--cases",
    "--judged",
    "--turned",
    "--crossed",
    "--leasts",
    "--working",
    "--judging",
    "--turning",
    "--choosing",
    "--lowering",
    "--crossing",
    "--least",
    "--reporting",
    "--mutants",
    "--working-mutants",
    "--judging-mutants",
    "--turning-mutants",
    "--choosing-mutants",
    "--lowering-mutants",
    "--crossing-mutants",
    "--least-mutants",
    "--reporting-mutants",
    "--byte-mutants",
    "--family-mutants",
];

fn asked() -> Option<Asked> {
    let words: Vec<String> = std::env::args().skip(1).collect();
    let mode = words.first().cloned().unwrap_or_default();
    let (mut taken, mut kit) = (usize::from(MODES.contains(&mode.as_str())), Kit::Library);
    if mode == "--mutant" {
        let place: usize = words.get(1)?.parse().ok()?;
        kit = Kit::Mutant(faults().get(place.checked_sub(1)?)?);
        taken = 2;
    }
    let numbers = words[taken..].iter().map(|word| word.parse().ok());
    let numbers: Vec<u64> = numbers.collect::<Option<_>>()?;
    (numbers.len() <= 2).then_some(Asked {
        mode,
        kit,
        seed: numbers.first().copied().unwrap_or(SEED),
        count: numbers.get(1).copied(),
    })
}

/// All parts, behind the twin's own checks.
fn compared(run: Run) -> Count {
    println!(
        "seed {}, {} random comparisons and the lists",
        run.seed, run.count
    );
    let counts = [
        self_checks_of_texts(run.seed),
        self_checks_of_plans(run.seed),
        ways_there_and_back(run.kit, run.seed),
        part::<TextTally>(run),
        part::<JudgingTally>(run),
        part::<WorkTally>(run),
        part::<TurningTally>(run),
        part::<ChoiceTally>(run),
        part::<LoweredTally>(run),
        part::<CrossingTally>(run),
        part::<LeastTally>(run),
        part::<ReportTally>(run),
    ];
    counts.into_iter().sum()
}

fn status(good: bool) -> ExitCode {
    ExitCode::from(u8::from(!good))
}

/// The faults that a mode lists, and what they are called behind their number; None of a mode
/// that lists none.
fn faults_of(mode: &str) -> Option<(&'static str, Kind)> {
    Some(match mode {
        "--mutants" => ("", |_| true),
        "--working-mutants" => (" of the working table", Mutant::of_working),
        "--judging-mutants" => (" of the judging of values", Mutant::of_judging),
        "--turning-mutants" => (" of the turning of circuits", Mutant::of_turning),
        "--choosing-mutants" => (" of the best choice", Mutant::of_choosing),
        "--lowering-mutants" => (" of lowered rooms", Mutant::of_lowering),
        "--crossing-mutants" => (" of whether circuits cross", Mutant::of_crossing),
        "--least-mutants" => (" of the least of five rules", Mutant::of_least),
        "--reporting-mutants" => (" of reports", Mutant::of_reporting),
        "--byte-mutants" => (" of the byte", Mutant::of_bytes),
        "--family-mutants" => (" of the families", Mutant::of_families),
        _ => return None,
    })
}

/// What a mode compares, or answers by itself.
fn carried_out(mode: &str, run: Run) -> ExitCode {
    match mode {
        "--cases" => status(stored::answer_all()),
        "--judged" => status(stored::judge_all()),
        "--turned" => status(stored::turn_all()),
        "--crossed" => status(stored::cross_all()),
        "--leasts" => status(stored::least_all()),
        "--working" => part::<WorkTally>(run).end(),
        "--judging" => part::<JudgingTally>(run).end(),
        "--turning" => part::<TurningTally>(run).end(),
        "--choosing" => part::<ChoiceTally>(run).end(),
        "--lowering" => part::<LoweredTally>(run).end(),
        "--crossing" => part::<CrossingTally>(run).end(),
        "--least" => part::<LeastTally>(run).end(),
        "--reporting" => part::<ReportTally>(run).end(),
        _ => compared(run).end(),
    }
}

fn main() -> ExitCode {
    let Some(asked) = asked() else {
        eprintln!("usage: twin --cases | twin --judged | twin --turned | twin --crossed | twin --leasts | twin [--working | --judging | --turning | --choosing | --lowering | --crossing | --least | --reporting | --mutants | --working-mutants | --judging-mutants | --turning-mutants | --choosing-mutants | --lowering-mutants | --crossing-mutants | --least-mutants | --reporting-mutants | --byte-mutants | --family-mutants | --mutant K] [SEED [COUNT]]");
        return ExitCode::from(2);
    };
    let (kit, seed) = (asked.kit, asked.seed);
    if let Some((of, kind)) = faults_of(&asked.mode) {
        let count = asked.count.unwrap_or(MUTANT_COUNT);
        return status(mutants(seed, count, of, kind));
    }
    let run = Run {
        kit,
        seed,
        count: asked.count.unwrap_or(COUNT),
        describing: true,
    };
    carried_out(&asked.mode, run)
}
