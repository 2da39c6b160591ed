//! Faults of the question whether circuits cross: another reading of one sentence, or
//! another reply. And what comes to the same.

use crate::crossing::{across, largest, otherwise, CrossingReply, Placed};
use crate::crossing::{Sentences, ALL_CROSS, MANY, PARALLEL, SENTENCES};
use crate::limits::SPLIT;
use crate::mutant::{asking, crossing, Mutant};
use crate::rules::{self, cross, front_inside, fronts_disjoint};
use crate::table::{Row, Table};

/// One sentence read otherwise, as a fault with this name.
macro_rules! reading {
    ($name:literal, $($sentence:ident: $other:expr),+) => {
        crossing(
            $name,
            Sentences {
                $($sentence: $other,)+
                ..SENTENCES
            },
        )
    };
}

fn amounts(rows: &[Placed]) -> impl Iterator<Item = i64> + '_ {
    rows.iter().map(|(_, row)| row.amount)
}

/// The place among the rows that count, from 1.
fn among(rows: &[Placed], place: usize) -> usize {
    let found = rows.iter().position(|(other, _)| *other == place);
    found.map_or(0, |at| at + 1)
}

/// How many offices two rows have between them.
fn offices(one: &Row, two: &Row) -> usize {
    let mut nodes = [one.first, one.second, two.first, two.second].to_vec();
    nodes.sort_unstable();
    nodes.dedup();
    nodes.len()
}

fn same_offices(one: &Row, two: &Row) -> bool {
    offices(one, two) == 2
}

/// By the number of links between their first offices, then as they stand.
fn nearest(one: (usize, usize), other: (usize, usize)) -> bool {
    (one.1 - one.0, one) < (other.1 - other.0, other)
}

fn too_many_of(rows: usize, most: usize) -> bool {
    rows > most
}

/// Twice the peak by rule D, to which rows of amount 0 add nothing.
fn by_rule_d(table: &Table, rows: &[Placed]) -> i64 {
    let rows = rows.iter().map(|(_, row)| *row).collect();
    2 * rules::plan(&Table { rows, ..*table }).peak
}

pub static CROSSING_FAULTS: [Mutant; 50] = [
    reading! { "crossing: rows of amount 0 counted", counts: |_| true },
    reading! { "crossing: rows of amount 1 not counted", counts: |row| row.amount > 1 },
    reading! {
        "crossing: rows of the largest amount there may be not counted",
        counts: |row| row.amount > 0 && row.amount < 9_999
    },
    reading! { "crossing: amounts in 8 bits counted", counts: |row| row.amount % 256 > 0 },
    reading! {
        "crossing: rows of two neighbours not counted",
        counts: |row| row.amount > 0 && row.second > row.first + 1
    },
    reading! {
        "crossing: a shared office crosses",
        crosses: |one, two| cross(one, two) || offices(one, two) == 3
    },
    reading! {
        "crossing: a shared first office crosses",
        crosses: |one, two| cross(one, two) || one.first == two.first && one.second != two.second
    },
    reading! {
        "crossing: a shared second office crosses",
        crosses: |one, two| cross(one, two) || one.second == two.second && one.first != two.first
    },
    reading! {
        "crossing: one's second as the other's first crosses",
        crosses: |one, two| cross(one, two) || one.second == two.first
    },
    reading! {
        "crossing: rows of the same offices cross",
        crosses: |one, two| cross(one, two) || same_offices(one, two)
    },
    reading! {
        "crossing: fronts inside cross",
        crosses: |one, two| cross(one, two) || offices(one, two) == 4 && front_inside(two, one)
    },
    reading! {
        "crossing: fronts apart cross",
        crosses: |one, two| cross(one, two) || offices(one, two) == 4 && fronts_disjoint(one, two)
    },
    reading! { "crossing: all cross", crosses: |_, _| true },
    reading! { "crossing: none cross", crosses: |_, _| false },
    reading! {
        "crossing: neighbours do not cross",
        crosses: |one, two| cross(one, two) && two.first > one.first + 1
    },
    reading! {
        "crossing: crossing and parallel changed over",
        crosses: |one, two| !cross(one, two)
    },
    reading! { "crossing: the last pair", before: |one, other| one > other },
    reading! {
        "crossing: by second, then first",
        before: |one, other| (one.1, one.0) < (other.1, other.0)
    },
    reading! {
        "crossing: of a first row the last",
        before: |one, other| one.0 < other.0 || one.0 == other.0 && one.1 > other.1
    },
    reading! { "crossing: the nearest pair", before: nearest },
    reading! {
        "crossing: places among rows with amounts",
        named: |rows, (first, second)| (among(rows, first), among(rows, second))
    },
    reading! { "crossing: places from 0", named: |_, (first, second)| (first - 1, second - 1) },
    reading! { "crossing: second before first", named: |_, (first, second)| (second, first) },
    reading! { "crossing: the first twice", named: |_, (first, _)| (first, first) },
    reading! { "crossing: lines for places", named: |_, (first, second)| (first + 1, second + 1) },
    reading! {
        "crossing: places in 8 bits",
        named: |_, (first, second)| (first % 256, second % 256)
    },
    reading! {
        "crossing: 16 are too many",
        too_many: |_, rows| too_many_of(rows.len(), SPLIT - 1)
    },
    reading! {
        "crossing: 17 are few enough",
        too_many: |_, rows| too_many_of(rows.len(), SPLIT + 1)
    },
    reading! { "crossing: never too many", too_many: |_, _| false },
    reading! {
        "crossing: all rows counted as too many",
        too_many: |table, _| too_many_of(table.rows.len(), SPLIT)
    },
    reading! {
        "crossing: too many by offices",
        too_many: |table, rows| table.n > 33 && rows.len() > 1
    },
    reading! {
        "crossing: more than half of the offices are too many",
        too_many: |table, rows| rows.len() > SPLIT || 2 * rows.len() as i64 > table.n - 1
    },
    reading! {
        "crossing: once the largest amount",
        bound: |table, rows| across(table) + largest(rows)
    },
    reading! {
        "crossing: three times the largest amount",
        bound: |table, rows| across(table) + 3 * largest(rows)
    },
    reading! {
        "crossing: M once more",
        bound: |table, rows| 2 * across(table) + 2 * largest(rows)
    },
    reading! { "crossing: without M", bound: |_, rows| 2 * largest(rows) },
    reading! { "crossing: the largest amount alone not taken", bound: |table, _| across(table) },
    reading! {
        "crossing: the smallest amount",
        bound: |table, rows| across(table) + 2 * amounts(rows).min().unwrap_or(0)
    },
    reading! {
        "crossing: the first amount",
        bound: |table, rows| across(table) + 2 * amounts(rows).next().unwrap_or(0)
    },
    reading! {
        "crossing: the last amount",
        bound: |table, rows| across(table) + 2 * amounts(rows).last().unwrap_or(0)
    },
    reading! {
        "crossing: the bound in 16 bits",
        bound: |table, rows| (across(table) + 2 * largest(rows)) % 65_536
    },
    reading! {
        "crossing: the bound in units",
        bound: |table, rows| (across(table) + 2 * largest(rows)) / 2
    },
    reading! {
        "crossing: an odd bound made even",
        bound: |table, rows| (across(table) + 2 * largest(rows)) / 2 * 2
    },
    reading! { "crossing: twice rule D's peak", bound: by_rule_d },
    reading! {
        "crossing: too many before a pair",
        otherwise: |pair, many| otherwise(pair.filter(|_| !many), many)
    },
    asking("crossing: the bound of too many said", |reply| {
        CrossingReply {
            bound: reply.bound + 2 * u32::from(reply.kind == MANY),
            ..reply
        }
    }),
    asking("crossing: a pair and too many changed over", |reply| {
        CrossingReply {
            kind: match reply.kind {
                PARALLEL => MANY,
                MANY => PARALLEL,
                kind => kind,
            },
            ..reply
        }
    }),
    asking("crossing: a refusal has a kind", |reply| CrossingReply {
        kind: if reply.reason > 0 {
            ALL_CROSS
        } else {
            reply.kind
        },
        ..reply
    }),
    asking("crossing: 1 on line 1", |reply| CrossingReply {
        line: reply.line + u32::from(reply.reason == 1),
        ..reply
    }),
    asking("crossing: counted from byte 0", |reply| CrossingReply {
        byte: reply.byte.saturating_sub(1),
        ..reply
    }),
];

/// Readings that come to the same: where all cross, one cut parts the offices of each row,
/// so that M is the sum of all amounts; and of two rows in table order the first office of
/// the second is not below that of the first.
pub static CROSSING_SAME: [Mutant; 2] = [
    reading! {
        "crossing: the sum of all amounts for M",
        bound: |_, rows| amounts(rows).sum::<i64>() + 2 * largest(rows)
    },
    reading! {
        "crossing: by first offices and then second",
        crosses: |one, two| {
            let nodes = [one.first, two.first, one.second, two.second];
            nodes.windows(2).all(|both| both[0] < both[1])
        }
    },
];
