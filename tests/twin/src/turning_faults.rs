//! Faults of sending whole circuits one turn at a time: another reading of one
//! sentence, or another thing done with the lent ways. And what comes to the same.

use crate::mutant::{answering, turning, Mutant};
use crate::rules::{self, peak, Way};
use crate::table::{Row, Table};
use crate::turns::{avoid, compare, lowers, on_path, other, path_loads};
use crate::turns::{Sentences, TurnReply, Turned, SENTENCES, WAYS};
use std::cmp::Ordering;

/// One sentence read otherwise, as a fault with this name.
macro_rules! reading {
    ($name:literal, $sentence:ident: $other:expr) => {
        turning(
            $name,
            Sentences {
                $sentence: $other,
                ..SENTENCES
            },
        )
    };
}

/// A longer list is the smaller where the shorter one is its beginning.
fn longer_smaller(one: &[i64], two: &[i64]) -> Ordering {
    let both = one.len().min(two.len());
    let begin = compare(&one[..both], &two[..both]);
    begin.then_with(|| two.len().cmp(&one.len()))
}

/// M/2 rounded up: what no peak is below.
fn floor(table: &Table) -> i64 {
    (rules::rule_a(table).across + 1) / 2
}

/// The path that the row does not take.
fn other_path(row: &Row, way: Way, loads: &[i64]) -> Vec<i64> {
    path_loads(row, other(way), loads)
}

fn by_links(row: &Row, way: Way, loads: &[i64]) -> Vec<i64> {
    let links = (1..).zip(loads);
    let path = links.filter(|(link, _)| on_path(row, way, *link));
    path.map(|(_, load)| *load).collect()
}

fn in_bits(bits: u32, list: Vec<i64>) -> Vec<i64> {
    let mut short: Vec<i64> = list.iter().map(|load| load % (1 << bits)).collect();
    short.sort_by(|one, two| two.cmp(one));
    short
}

fn first_circuits(table: &Table) -> Vec<Row> {
    let mut rows = table.rows.clone();
    for at in 1..rows.len() {
        let (before, row) = (rows[at - 1], rows[at]);
        rows[at].amount *= i64::from((before.first, before.second) != (row.first, row.second));
    }
    rows
}

pub static TURNING_FAULTS: [Mutant; 45] = [
    reading! {
        "turning: the last that lowers, not the first",
        choose: |rows, may| rows.iter().copied().rev().find(|row| may(*row))
    },
    reading! {
        "turning: the first in falling order alone",
        choose: |rows, may| rows.first().copied().filter(|row| may(*row))
    },
    reading! {
        "turning: the first in table order",
        choose: |rows, may| rows.iter().copied().filter(|row| may(*row)).min()
    },
    reading! { "turning: in rising order", compare: |one, two| compare(two, one) },
    reading! { "turning: ties to the later row", ties: |one, two| two.cmp(one) },
    reading! { "turning: a list that runs out first is the larger", compare: longer_smaller },
    reading! {
        "turning: by the largest load alone",
        compare: |one, two| one.first().cmp(&two.first())
    },
    reading! {
        "turning: by the two largest loads alone",
        compare: |one, two| compare(&one[..one.len().min(2)], &two[..two.len().min(2)])
    },
    reading! {
        "turning: by the sum of the loads",
        list: |row, way, loads| vec![path_loads(row, way, loads).iter().sum()]
    },
    reading! {
        "turning: equal loads listed once",
        list: |row, way, loads| {
            let mut list = path_loads(row, way, loads);
            list.dedup();
            list
        }
    },
    reading! {
        "turning: loads from smallest to largest",
        list: |row, way, loads| {
            let mut list = path_loads(row, way, loads);
            list.reverse();
            list
        }
    },
    reading! { "turning: loads by their links", list: by_links },
    reading! { "turning: loads of the other path", list: other_path },
    reading! {
        "turning: loads in 16 bits",
        list: |row, way, loads| in_bits(16, path_loads(row, way, loads))
    },
    reading! {
        "turning: loads in 8 bits",
        list: |row, way, loads| in_bits(8, path_loads(row, way, loads))
    },
    reading! { "turning: a start over its link", avoid: |row, a| other(avoid(row, a)) },
    reading! {
        "turning: a start avoids the link behind the front too",
        avoid: |row, a| if row.first <= a && a <= row.second { Way::B } else { Way::F }
    },
    reading! { "turning: a start avoids the link before", avoid: |row, a| avoid(row, a - 1) },
    reading! {
        "turning: rows of amount 0 start F",
        avoid: |row, a| if row.amount == 0 { Way::F } else { avoid(row, a) }
    },
    reading! { "turning: the first start alone", starts: |_| vec![1] },
    reading! { "turning: the start of link n left out", starts: |table| (1..table.n).collect() },
    reading! { "turning: the start of link 1 left out", starts: |table| (2..=table.n).collect() },
    reading! { "turning: the largest link wins ties", better: |new, best| new.peak <= best.peak },
    reading! {
        "turning: fewer turns win ties",
        better: |new, best| (new.peak, new.turns) < (best.peak, best.turns)
    },
    reading! { "turning: the last start wins", better: |_, _| true },
    reading! { "turning: the largest peak wins", better: |new, best| new.peak > best.peak },
    reading! { "turning: turns up to the answer's start", turns: |before, _| before.iter().sum() },
    reading! { "turning: turns of all starts", turns: |_, all| all.iter().sum() },
    reading! {
        "turning: turns of the last start",
        turns: |_, all| all.last().copied().unwrap_or(0)
    },
    reading! {
        "turning: one turn more",
        turns: |before, _| before.last().copied().unwrap_or(0) + 1
    },
    reading! {
        "turning: a turn that keeps the peak taken",
        lowers: |row, before, after| {
            // from a front that is short to a longer back alone, so that it ends
            let more = after.iter().sum::<i64>() > before.iter().sum();
            lowers(row, before, after) || row.amount > 0 && more && peak(after) == peak(before)
        }
    },
    reading! {
        "turning: a turn that lowers the peak by less than a tenth not taken",
        lowers: |row, before, after| {
            lowers(row, before, after) && 10 * peak(after) <= 9 * peak(before)
        }
    },
    reading! {
        "turning: ends one above the floor",
        enough: |table, best| best.peak <= floor(table) + 1
    },
    reading! { "turning: ends at a start that has no turns", enough: |_, best| best.turns == 0 },
    reading! {
        "turning: the peak of rule D",
        say: |table, answer| Turned { peak: answer.peak.max(rules::plan(table).peak), ..answer }
    },
    reading! {
        "turning: the ways of rule D",
        say: |table, answer| Turned { ways: rules::plan(table).ways, ..answer }
    },
    reading! {
        "turning: the floor for the peak",
        say: |table, answer| Turned { peak: floor(table), ..answer }
    },
    reading! { "turning: circuits of one pair taken once", rows: first_circuits },
    answering("turning: the way behind the rows cleared", |reply, ways| {
        if let Some(way) = ways.get_mut(reply.rows).filter(|_| reply.reason == 0) {
            *way = 0;
        }
        reply
    }),
    answering("turning: a refusal clears the first way", |reply, ways| {
        ways[0] *= u8::from(reply.reason == 0);
        reply
    }),
    answering("turning: 1 for F and 0 for B", |reply, ways| {
        ways[..reply.rows]
            .iter_mut()
            .for_each(|way| *way = 1 - *way);
        reply
    }),
    answering("turning: all 1,024 rows said", |reply, _| TurnReply {
        rows: reply.rows.max(WAYS),
        ..reply
    }),
    answering("turning: links from 0", |reply, _| TurnReply {
        link: reply.link.saturating_sub(1),
        ..reply
    }),
    answering("turning: 1 on line 1", |reply, _| TurnReply {
        line: reply.line + u32::from(reply.reason == 1),
        ..reply
    }),
    answering("turning: counted from byte 0", |reply, _| TurnReply {
        byte: reply.byte.saturating_sub(1),
        ..reply
    }),
];

/// Whether the row's path holds every link of the largest load.
fn holds_all_largest(row: &Row, before: &[i64], after: &[i64]) -> bool {
    let most = peak(before);
    let links = before.iter().zip(after);
    row.amount > 0
        && links
            .filter(|(load, _)| **load == most)
            .all(|(load, then)| then < load)
}

/// Readings that come to the same.
pub static TURNING_SAME: [Mutant; 2] = [
    reading! { "turning: ends at the floor", enough: |table, best| best.peak <= floor(table) },
    reading! {
        "turning: rows that miss a link of the largest load passed over",
        lowers: |row, before, after| {
            holds_all_largest(row, before, after) && lowers(row, before, after)
        }
    },
];
