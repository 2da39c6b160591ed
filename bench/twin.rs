//! `twin make N [ROWS]` writes the table of all pairs of N offices, or of as many as there
//! may be rows, with amounts drawn from a fixed seed, or of so many rows, some of the pairs
//! or more circuits of them; `twin route FILE` routes a table once by the twin, to be
//! counted from outside, and writes the sheet, `twin best FILE` does so by the best choice,
//! `twin lowered FILE` and `twin lowered_best FILE` by lowered rooms;
//! `twin turn FILE` sends its circuits one turn at a time, and writes peak, link and
//! turns, and the ways as letters, `twin least FILE` by the rule that comes to the least
//! peak, and writes peak, floor and rule, and the ways.

#![allow(dead_code)]

#[path = "../tests/twin/src/check.rs"]
mod check;
#[path = "../tests/twin/src/choice.rs"]
mod choice;
#[path = "../tests/twin/src/family.rs"]
mod family;
#[path = "../tests/twin/src/gen.rs"]
mod gen;
#[path = "../tests/twin/src/least.rs"]
mod least;
#[path = "../tests/twin/src/limits.rs"]
mod limits;
#[path = "../tests/twin/src/lowered.rs"]
mod lowered;
#[path = "../tests/twin/src/matrix.rs"]
mod matrix;
#[path = "../tests/twin/src/report.rs"]
mod report;
#[path = "../tests/twin/src/rng.rs"]
mod rng;
#[path = "../tests/twin/src/rules.rs"]
mod rules;
#[path = "../tests/twin/src/shape.rs"]
mod shape;
#[path = "../tests/twin/src/sheet.rs"]
mod sheet;
#[path = "../tests/twin/src/table.rs"]
mod table;
#[path = "../tests/twin/src/turns.rs"]
mod turns;
#[path = "../tests/twin/src/twin.rs"]
mod twin;

use least::LeastReply;
use std::io::Write;
use turns::{TurnReply, WAYS};
use twin::{Call, Reply};

const SEED: u64 = 20_010_496;
/// Room for every sheet.
const ROOM: usize = 32_768;

/// What the call says that is counted.
enum Counted {
    Routed(Reply),
    Turned(TurnReply),
    Least(LeastReply),
}

/// As the library's call. It is never inlined, so that it can be counted by name.
#[no_mangle]
#[inline(never)]
fn counted(what: &str, table: &[u8], buffer: &mut [u8]) -> Counted {
    if what == "turn" {
        return Counted::Turned(turns::turn(table, &mut buffer[..WAYS]));
    }
    if what == "least" {
        return Counted::Least(least::least(table, &mut buffer[..WAYS]));
    }
    let call = match what {
        "best" => Call::RouteBest,
        "lowered" => Call::RouteLowered,
        "lowered_best" => Call::RouteLoweredBest,
        _ => Call::Route,
    };
    Counted::Routed(twin::reply(&twin::answer(call, table), buffer))
}

/// Rows left out, or circuits put in.
fn resize(rng: &mut rng::Rng, table: &mut table::Table, rows: usize) {
    while table.rows.len() > rows {
        let at = rng.below(table.rows.len());
        table.rows.remove(at);
    }
    gen::more_circuits(rng, table, rows);
}

/// Three numbers, and ways as letters.
fn whole([one, two, three]: [u32; 3], ways: &[u8]) -> Vec<u8> {
    let letters = ways.iter().map(|way| if *way == 0 { 'F' } else { 'B' });
    format!("{one} {two} {three} {}\n", letters.collect::<String>()).into_bytes()
}

fn main() {
    let words: Vec<String> = std::env::args().skip(1).collect();
    let (what, word) = (words[0].as_str(), words[1].as_str());
    let mut out = std::io::stdout();
    if what == "make" {
        let n = word.parse().expect("a number of offices");
        let mut rng = rng::Rng::new(SEED);
        let mut table = gen::full(&mut rng, n, gen::Amounts::UpTo(9_999));
        if let Some(rows) = words.get(2) {
            resize(
                &mut rng,
                &mut table,
                rows.parse().expect("a number of rows"),
            );
        }
        out.write_all(&sheet::table_text(&table)).expect("output");
        return;
    }
    assert!(["route", "best", "lowered", "lowered_best", "turn", "least"].contains(&what));
    let table = std::fs::read(word).expect("a table");
    let mut buffer = vec![0; ROOM];
    let written = match counted(what, &table, &mut buffer) {
        Counted::Routed(reply) => {
            assert_eq!(reply.reason, 0);
            buffer[..reply.length].to_vec()
        }
        Counted::Turned(reply) => {
            assert_eq!(reply.reason, 0);
            whole([reply.peak, reply.link, reply.turns], &buffer[..reply.rows])
        }
        Counted::Least(reply) => {
            assert_eq!(reply.reason, 0);
            whole([reply.peak, reply.floor, reply.rule], &buffer[..reply.rows])
        }
    };
    out.write_all(&written).expect("output");
}
