//! Whether the rows of a table that have amounts all cross each other, and are few enough
//! (Rules, rings where everything crosses), sentence by sentence: every two of them are
//! looked at, whatever was found before, and the largest cut is rule A's.

use crate::limits::SPLIT;
use crate::rules::{self, cross};
use crate::table::{self, Refusal, Row, Table};

/// What is found.
#[derive(Clone, Copy, PartialEq, Eq, Debug)]
pub enum Crossing {
    /// All cross, and are few enough: what twice the best choice's peak is at most.
    All(i64),
    /// The first pair that is parallel, by their places among all rows from 1.
    Parallel(usize, usize),
    /// All cross, and are too many.
    Many,
}

/// A row that counts, with its place among all rows, from 1.
pub type Placed = (usize, Row);

/// A sentence of the rule each: a fault is another reading of one of them.
#[derive(Clone, Copy)]
pub struct Sentences {
    /// Whether a row counts.
    pub counts: fn(&Row) -> bool,
    pub crosses: fn(&Row, &Row) -> bool,
    /// Whether one pair stands before another, by their places.
    pub before: fn((usize, usize), (usize, usize)) -> bool,
    /// How a pair of rows that count is named.
    pub named: fn(&[Placed], (usize, usize)) -> (usize, usize),
    /// Whether there are too many rows.
    pub too_many: fn(&Table, &[Placed]) -> bool,
    pub bound: fn(&Table, &[Placed]) -> i64,
    /// What is said of a pair, if there is one, and of whether there are too many rows;
    /// None where the bound is.
    pub otherwise: fn(Option<(usize, usize)>, bool) -> Option<Crossing>,
}

pub const SENTENCES: Sentences = Sentences {
    counts: |row| row.amount > 0,
    crosses: cross,
    before: |one, other| one < other,
    named: |_, pair| pair,
    too_many: |_, rows| rows.len() > SPLIT,
    bound: |table, rows| across(table) + 2 * largest(rows),
    otherwise,
};

/// M: rule A's.
pub fn across(table: &Table) -> i64 {
    rules::rule_a(table).across
}

/// The largest amount, 0 where there is none.
pub fn largest(rows: &[Placed]) -> i64 {
    rows.iter().map(|(_, row)| row.amount).max().unwrap_or(0)
}

/// A pair is named however many rows there are.
pub fn otherwise(pair: Option<(usize, usize)>, too_many: bool) -> Option<Crossing> {
    let pair = pair.map(|(first, second)| Crossing::Parallel(first, second));
    pair.or(too_many.then_some(Crossing::Many))
}

/// The rows that count.
pub fn counting(table: &Table, how: &Sentences) -> Vec<Placed> {
    let rows = (1..).zip(table.rows.iter().copied());
    rows.filter(|(_, row)| (how.counts)(row)).collect()
}

/// The first pair that does not cross.
fn first_parallel(rows: &[Placed], how: &Sentences) -> Option<(usize, usize)> {
    let mut first = None;
    for (at, (place, row)) in rows.iter().enumerate() {
        for (other_place, other) in &rows[at + 1..] {
            let pair = (*place, *other_place);
            let earlier = first.is_none_or(|best| (how.before)(pair, best));
            if earlier && !(how.crosses)(row, other) {
                first = Some(pair);
            }
        }
    }
    first.map(|pair| (how.named)(rows, pair))
}

pub fn answer_read(table: &Table, how: &Sentences) -> Crossing {
    let rows = counting(table, how);
    let pair = first_parallel(&rows, how);
    let otherwise = (how.otherwise)(pair, (how.too_many)(table, &rows));
    otherwise.unwrap_or_else(|| Crossing::All((how.bound)(table, &rows)))
}

pub fn answer(table: &Table) -> Crossing {
    answer_read(table, &SENTENCES)
}

/// The reply of the call: what the kind does not have is 0, and of a refusal all but
/// reason, line and byte.
#[repr(C)]
#[derive(Clone, Copy, PartialEq, Eq, Default, Debug)]
pub struct CrossingReply {
    pub reason: u32,
    pub line: u32,
    pub byte: u32,
    pub kind: u32,
    pub bound: u32,
    pub first: usize,
    pub second: usize,
}

pub const ALL_CROSS: u32 = 1;
pub const PARALLEL: u32 = 2;
pub const MANY: u32 = 3;

impl CrossingReply {
    /// From its numbers, in their order.
    pub fn of([reason, line, byte, kind, bound, first, second]: [u32; 7]) -> CrossingReply {
        CrossingReply {
            reason,
            line,
            byte,
            kind,
            bound,
            first: first as usize,
            second: second as usize,
        }
    }
}

pub fn reply(answer: &Result<Crossing, Refusal>) -> CrossingReply {
    let none = CrossingReply::default();
    match *answer {
        Err(Refusal { reason, line, byte }) => CrossingReply {
            reason,
            line,
            byte,
            ..none
        },
        Ok(Crossing::All(bound)) => CrossingReply {
            kind: ALL_CROSS,
            bound: bound as u32,
            ..none
        },
        Ok(Crossing::Parallel(first, second)) => CrossingReply {
            kind: PARALLEL,
            first,
            second,
            ..none
        },
        Ok(Crossing::Many) => CrossingReply { kind: MANY, ..none },
    }
}

/// What the call answers.
pub fn ask(text: &[u8]) -> CrossingReply {
    reply(&table::read(text).map(|table| answer(&table)))
}
