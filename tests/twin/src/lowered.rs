//! Lowered rooms (Rules, lowered rooms), sentence by sentence: before any row is sent
//! each link gets the room that the others leave it, links 1 to n in turn. Rules C and D
//! and the best choice follow as they do elsewhere.

use crate::choice::{self, Left};
use crate::rules::{self, Plan, Sent};
use crate::table::{Refusal, Table};

/// The rooms as they stand when a link's turn comes: lowered below it, M from it on, and
/// that of link 0 of no use.
pub struct Rooms<'a> {
    pub table: &'a Table,
    pub m: i64,
    pub room: Vec<i64>,
}

/// A sentence of the rule each: a fault is another reading of one of them.
#[derive(Clone, Copy)]
pub struct Sentences {
    /// The links in the order of their turns.
    pub turns: fn(&Table) -> Vec<i64>,
    /// What link h asks of link g.
    pub asked: fn(&Rooms, i64, i64) -> i64,
    /// The room, of all that is asked.
    pub room: fn(&[i64]) -> i64,
    /// The rooms that rows are sent by, in the end.
    pub rooms: fn(&Rooms) -> Vec<i64>,
    /// Rule C.
    pub pairs: fn(&Table, &mut [Sent]),
    /// How whole rows go, in the two calls.
    pub rule_d: fn(&Left) -> Plan,
    pub best: fn(&Left) -> Result<Plan, Refusal>,
}

pub const SENTENCES: Sentences = Sentences {
    turns: |table| (1..=table.n).collect(),
    asked,
    room: largest,
    rooms: |rooms| rooms.room.clone(),
    pairs: |table, sent| rules::rule_c(&table.rows, sent),
    rule_d,
    best,
};

/// 2 x across(h,g) - room(h) for h below g, 2 x across(g,h) - M for h above.
pub fn asked(rooms: &Rooms, g: i64, h: i64) -> i64 {
    let there = if h < g {
        rooms.room[h as usize]
    } else {
        rooms.m
    };
    twice_across(rooms, g, h) - there
}

pub fn twice_across(rooms: &Rooms, g: i64, h: i64) -> i64 {
    2 * rules::across(&rooms.table.rows, g, h)
}

pub fn largest(asked: &[i64]) -> i64 {
    asked.iter().copied().max().expect("a link has others")
}

/// The rooms of all links, before any row is sent.
pub fn rooms(table: &Table, m: i64, how: &Sentences) -> Vec<i64> {
    let room = vec![m; table.n as usize + 1];
    let mut rooms = Rooms { table, m, room };
    for g in (how.turns)(table) {
        let others = (1..=table.n).filter(|h| *h != g);
        let asked: Vec<i64> = others.map(|h| (how.asked)(&rooms, g, h)).collect();
        rooms.room[g as usize] = (how.room)(&asked);
    }
    (how.rooms)(&rooms)
}

/// Rules A to C, by these rooms.
pub fn left<'a>(table: &'a Table, how: &Sentences) -> Left<'a> {
    let cut = rules::rule_a(table);
    let mut sent = rules::send(table, rooms(table, cut.across, how));
    (how.pairs)(table, &mut sent);
    Left { table, cut, sent }
}

pub fn rule_d(left: &Left) -> Plan {
    let ways = rules::rule_d(&left.table.rows, &left.sent);
    rules::figures(left.table, left.cut, left.sent.clone(), ways)
}

pub fn best(left: &Left) -> Result<Plan, Refusal> {
    choice::plan_left(left, &choice::SENTENCES)
}

pub fn plan_read(table: &Table, how: &Sentences) -> Plan {
    (how.rule_d)(&left(table, how))
}

pub fn best_plan_read(table: &Table, how: &Sentences) -> Result<Plan, Refusal> {
    (how.best)(&left(table, how))
}

/// With rule D, and with the best choice.
pub fn plan(table: &Table) -> Plan {
    plan_read(table, &SENTENCES)
}

pub fn best_plan(table: &Table) -> Result<Plan, Refusal> {
    best_plan_read(table, &SENTENCES)
}
