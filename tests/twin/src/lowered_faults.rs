//! Faults of lowered rooms: another reading of one sentence. And what comes to the same.

use crate::choice::{self, split_count, Left};
use crate::limits::SPLIT;
use crate::lowered::{asked, largest, twice_across, Rooms, Sentences, SENTENCES};
use crate::mutant::{lowering, Mutant};
use crate::rules::{self, Plan};
use crate::table::{refuse, Refusal, Table};

/// One sentence read otherwise, as a fault with this name.
macro_rules! reading {
    ($name:literal, $($sentence:ident: $other:expr),+) => {
        lowering(
            $name,
            Sentences {
                $($sentence: $other,)+
                ..SENTENCES
            },
        )
    };
}

/// The room of a link below as if it had none, where it is above.
fn swapped(rooms: &Rooms, g: i64, h: i64) -> i64 {
    let there = if h < g { rooms.m } else { 0 };
    twice_across(rooms, g, h) - there
}

/// What link h has at this moment, wherever it stands.
fn in_place(rooms: &Rooms, g: i64, h: i64) -> i64 {
    twice_across(rooms, g, h) - rooms.room[h as usize]
}

/// Links that do not count ask for nothing.
fn of_some(rooms: &Rooms, g: i64, h: i64, counts: bool) -> i64 {
    if counts {
        asked(rooms, g, h)
    } else {
        0
    }
}

fn next_to(rooms: &Rooms, g: i64, h: i64) -> bool {
    let n = rooms.table.n;
    (g - h).rem_euclid(n) == 1 || (h - g).rem_euclid(n) == 1
}

fn changed(rooms: &Rooms, change: fn(i64) -> i64) -> Vec<i64> {
    rooms.room.iter().map(|room| change(*room)).collect()
}

/// The plan of the table by level rooms.
fn by_level_rooms(left: &Left) -> Plan {
    rules::plan(left.table)
}

fn best_by_level_rooms(left: &Left) -> Result<Plan, Refusal> {
    choice::plan(left.table)
}

fn best_of_rule_d(left: &Left) -> Plan {
    choice::plan_left(left, &choice::SENTENCES).unwrap_or_else(|_| crate::lowered::rule_d(left))
}

/// 23 by what level rooms leave split.
fn counted_by_level_rooms(left: &Left) -> Result<Plan, Refusal> {
    if split_count(&choice::left(left.table)) > SPLIT {
        return refuse(23, 0, 0);
    }
    crate::lowered::best(left)
}

fn back_to_front(table: &Table) -> Vec<i64> {
    (1..=table.n).rev().collect()
}

pub static LOWERED_FAULTS: [Mutant; 22] = [
    reading! { "lowered: the two cases swapped", asked: swapped },
    reading! { "lowered: M for room(h)", asked: |rooms, g, h| twice_across(rooms, g, h) - rooms.m },
    reading! { "lowered: links from n down", turns: back_to_front, asked: in_place },
    reading! { "lowered: the smallest for the largest", room: |asked| asked.iter().copied().min().unwrap_or(0) },
    reading! { "lowered: across number once, not twice", asked: |rooms, g, h| asked(rooms, g, h) - twice_across(rooms, g, h) / 2 },
    reading! { "lowered: not at all", rooms: |rooms| vec![rooms.m; rooms.room.len()] },
    reading! { "lowered: link 1 left out", turns: |table| (2..=table.n).collect(), asked: in_place },
    reading! { "lowered: even links first", turns: |table| {
        let (even, odd): (Vec<_>, Vec<_>) = (1..=table.n).partition(|link| link % 2 == 0);
        [even, odd].concat()
    }, asked: in_place },
    reading! { "lowered: links next to each other alone", asked: |rooms, g, h| of_some(rooms, g, h, next_to(rooms, g, h)) },
    reading! { "lowered: links below alone", asked: |rooms, g, h| of_some(rooms, g, h, h < g) },
    reading! { "lowered: links above alone", asked: |rooms, g, h| of_some(rooms, g, h, h > g) },
    reading! { "lowered: link n asks for nothing", asked: |rooms, g, h| of_some(rooms, g, h, h < rooms.table.n) },
    reading! { "lowered: the last that is asked", room: |asked| asked.last().copied().unwrap_or(0) },
    reading! { "lowered: one half more", rooms: |rooms| changed(rooms, |room| room + 1) },
    reading! { "lowered: one unit less", rooms: |rooms| changed(rooms, |room| (room - 2).max(0)) },
    reading! { "lowered: rooms made even", rooms: |rooms| changed(rooms, |room| room + room % 2) },
    reading! { "lowered: rooms in 16 bits", rooms: |rooms| changed(rooms, |room| room % 65_536) },
    reading! { "lowered: level rooms for rule D", rule_d: by_level_rooms },
    reading! { "lowered: level rooms for the best choice", best: best_by_level_rooms },
    reading! { "lowered: the best choice for rule D", rule_d: best_of_rule_d },
    reading! { "lowered: rule D for the best choice", best: |left| {
        crate::lowered::best(left).map(|_| crate::lowered::rule_d(left))
    } },
    reading! { "lowered: 23 by what level rooms leave split", best: counted_by_level_rooms },
];

/// Readings that come to the same.
pub static LOWERED_SAME: [Mutant; 6] = [
    // of a table no two parallel rows are split
    reading! { "lowered: rule C skipped", pairs: |_, _| () },
    // link n is in no front, so that its room is of no use
    reading! { "lowered: link n left out", turns: |table| (1..table.n).collect() },
    // no room is below 0, so that the largest is not either
    reading! { "lowered: what is asked below 0 is 0", asked: |rooms, g, h| asked(rooms, g, h).max(0) },
    reading! { "lowered: a room below 0 is 0", room: |asked| largest(asked).max(0) },
    // above stands M in the place of a room until the link's turn
    reading! { "lowered: in place", asked: in_place },
    // each link is as low as the others let it be
    reading! { "lowered: all links in turn twice", turns: |table| (1..=table.n).chain(1..=table.n).collect(), asked: in_place },
];
