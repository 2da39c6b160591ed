//! Whole circuits, one turn at a time (Rules, one turn at a time), sentence by
//! sentence: lists are made and sorted, every start is tried, and none ends early.

use crate::limits::ROWS;
use crate::rules::{front_holds, peak, unsplit_load, Way};
use crate::table::{self, Refusal, Row, Table};
use std::cmp::Ordering;

/// What the starts come to: the ways, their peak, the link that the start avoids
/// and how many turns it took.
#[derive(Clone, PartialEq, Eq, Debug)]
pub struct Turned {
    pub ways: Vec<Way>,
    pub peak: i64,
    pub link: i64,
    pub turns: u32,
}

/// The rows as they go at some moment, with the loads of links 1..n.
#[derive(Clone)]
pub struct Going {
    pub ways: Vec<Way>,
    pub loads: Vec<i64>,
}

/// A sentence of the rule each: a fault is another reading of one of them.
#[derive(Clone, Copy)]
pub struct Sentences {
    /// The rows that are looked at.
    pub rows: fn(&Table) -> Vec<Row>,
    /// The links whose starts are tried.
    pub starts: fn(&Table) -> Vec<i64>,
    /// How a row goes at the start that avoids a link.
    pub avoid: fn(&Row, i64) -> Way,
    /// What a row is listed with.
    pub list: fn(&Row, Way, &[i64]) -> Vec<i64>,
    pub compare: fn(&[i64], &[i64]) -> Ordering,
    /// Which of two places stands first where their lists are equal.
    pub ties: fn(&usize, &usize) -> Ordering,
    /// Whether a row's turn, from these loads to those, is one to be taken.
    pub lowers: fn(&Row, &[i64], &[i64]) -> bool,
    /// Of the rows in falling order, which of them may be turned, the one that is.
    pub choose: fn(&[usize], &dyn Fn(usize) -> bool) -> Option<usize>,
    /// Whether an answer takes the place of the best before it.
    pub better: fn(&Turned, &Turned) -> bool,
    /// The turns that are said, by those of the starts up to the answer's and by
    /// those of all.
    pub turns: fn(&[u32], &[u32]) -> u32,
    /// Whether no later start is tried.
    pub enough: fn(&Table, &Turned) -> bool,
    pub say: fn(&Table, Turned) -> Turned,
}

pub const SENTENCES: Sentences = Sentences {
    rows: |table| table.rows.clone(),
    starts: |table| (1..=table.n).collect(),
    avoid,
    list: path_loads,
    compare,
    ties: usize::cmp,
    lowers,
    choose: |rows, may| rows.iter().copied().find(|row| may(*row)),
    better: |new, best| new.peak < best.peak,
    turns: |before, _| *before.last().expect("a start"),
    enough: |_, _| false,
    say: |_, answer| answer,
};

pub fn other(way: Way) -> Way {
    match way {
        Way::F => Way::B,
        Way::B => Way::F,
    }
}

/// For each link a, start with every row routed to avoid a.
pub fn avoid(row: &Row, a: i64) -> Way {
    if front_holds(row, a) {
        Way::B
    } else {
        Way::F
    }
}

pub fn on_path(row: &Row, way: Way, link: i64) -> bool {
    front_holds(row, link) == (way == Way::F)
}

/// Each row's loads on its path from largest to smallest.
pub fn path_loads(row: &Row, way: Way, loads: &[i64]) -> Vec<i64> {
    let links = (1..).zip(loads);
    let path = links.filter(|(link, _)| on_path(row, way, *link));
    let mut list: Vec<i64> = path.map(|(_, load)| *load).collect();
    list.sort_by(|one, two| two.cmp(one));
    list
}

/// Lists are compared from the front; a list that runs out first is the smaller.
pub fn compare(one: &[i64], two: &[i64]) -> Ordering {
    match (one, two) {
        ([], []) => Ordering::Equal,
        ([], _) => Ordering::Less,
        (_, []) => Ordering::Greater,
        ([a, rest_of_one @ ..], [b, rest_of_two @ ..]) => {
            a.cmp(b).then_with(|| compare(rest_of_one, rest_of_two))
        }
    }
}

/// The turn lowers the ring's peak.
pub fn lowers(_: &Row, before: &[i64], after: &[i64]) -> bool {
    peak(after) < peak(before)
}

pub fn going(table: &Table, rows: &[Row], ways: Vec<Way>) -> Going {
    let links = 1..=table.n;
    let loads = links.map(|link| unsplit_load(rows, &ways, link)).collect();
    Going { ways, loads }
}

/// The loads when a row goes the other way.
pub fn loads_turned(row: &Row, way: Way, loads: &[i64]) -> Vec<i64> {
    let links = (1..).zip(loads);
    let turned = links.map(|(link, load)| {
        let sign = if on_path(row, way, link) { -1 } else { 1 };
        load + sign * row.amount
    });
    turned.collect()
}

/// The rows by their places, in falling order of their lists; ties go to the
/// earlier row.
pub fn falling_order(rows: &[Row], now: &Going, how: &Sentences) -> Vec<usize> {
    let rows = rows.iter().zip(&now.ways);
    let lists = rows.map(|(row, way)| (how.list)(row, *way, &now.loads));
    let mut order: Vec<(usize, Vec<i64>)> = lists.enumerate().collect();
    order.sort_by(|(place, list), (other, than)| {
        (how.compare)(than, list).then_with(|| (how.ties)(place, other))
    });
    order.into_iter().map(|(place, _)| place).collect()
}

/// In falling order, the first row whose turn lowers the ring's peak.
pub fn choice(rows: &[Row], now: &Going, how: &Sentences) -> Option<usize> {
    let may = |place: usize| {
        let row = &rows[place];
        let after = loads_turned(row, now.ways[place], &now.loads);
        (how.lowers)(row, &now.loads, &after)
    };
    (how.choose)(&falling_order(rows, now, how), &may)
}

/// The start that avoids a link, and begin again until no row does.
pub fn from_start(table: &Table, rows: &[Row], a: i64, how: &Sentences) -> Turned {
    let start = rows.iter().map(|row| (how.avoid)(row, a)).collect();
    let mut now = going(table, rows, start);
    let mut turns = 0;
    while let Some(place) = choice(rows, &now, how) {
        now.ways[place] = other(now.ways[place]);
        now = going(table, rows, now.ways);
        turns += 1;
    }
    Turned {
        peak: peak(&now.loads),
        ways: now.ways,
        link: a,
        turns,
    }
}

/// The directions of least peak over all starts, the smallest link winning ties.
pub fn answer_read(table: &Table, how: &Sentences) -> Turned {
    let rows = (how.rows)(table);
    let (mut best, mut turns): (Option<Turned>, Vec<u32>) = (None, Vec::new());
    let mut at_best = 0;
    for a in (how.starts)(table) {
        let new = from_start(table, &rows, a, how);
        turns.push(new.turns);
        if best.as_ref().is_none_or(|best| (how.better)(&new, best)) {
            best = Some(new);
            at_best = turns.len();
        }
        if best.as_ref().is_some_and(|best| (how.enough)(table, best)) {
            break;
        }
    }
    let mut best = best.expect("a ring of 2 nodes or more has a start");
    best.turns = (how.turns)(&turns[..at_best], &turns);
    (how.say)(table, best)
}

pub fn answer(table: &Table) -> Turned {
    answer_read(table, &SENTENCES)
}

/// The reply of the call: of a refusal all but reason, line and byte is 0.
#[repr(C)]
#[derive(Clone, Copy, PartialEq, Eq, Default, Debug)]
pub struct TurnReply {
    pub reason: u32,
    pub line: u32,
    pub byte: u32,
    pub peak: u32,
    pub link: u32,
    pub turns: u32,
    pub rows: usize,
}

impl TurnReply {
    /// From its numbers, in their order.
    pub fn of([reason, line, byte, peak, link, turns, rows]: [u32; 7]) -> TurnReply {
        TurnReply {
            reason,
            line,
            byte,
            peak,
            link,
            turns,
            rows: rows as usize,
        }
    }
}

/// The bytes of the ways that are lent, whatever the table.
pub const WAYS: usize = ROWS;

/// A way as a byte.
pub fn byte(way: &Way) -> u8 {
    u8::from(*way == Way::B)
}

/// The first bytes of the ways become 0 for F or 1 for B, those behind them stay; a
/// refusal changes none.
pub fn reply(answer: &Result<Turned, Refusal>, ways: &mut [u8]) -> TurnReply {
    match answer {
        Err(refusal) => TurnReply {
            reason: refusal.reason,
            line: refusal.line,
            byte: refusal.byte,
            ..TurnReply::default()
        },
        Ok(turned) => {
            for (lent, way) in ways.iter_mut().zip(&turned.ways) {
                *lent = byte(way);
            }
            TurnReply {
                peak: turned.peak as u32,
                link: turned.link as u32,
                turns: turned.turns,
                rows: turned.ways.len(),
                ..TurnReply::default()
            }
        }
    }
}

/// What the call answers, and what it leaves in the lent ways.
pub fn turn(text: &[u8], ways: &mut [u8]) -> TurnReply {
    reply(&table::read(text).map(|table| answer(&table)), ways)
}
