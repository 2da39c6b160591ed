//! The best choice among the split rows (Rules, the best choice), sentence by sentence:
//! every way of sending them whole is tried, whatever was found before, and all loads of
//! all rows are added up anew for each.

use crate::limits::SPLIT;
use crate::rules::{self, front_holds, Cut, Plan, Sent, Way};
use crate::table::{refuse, Refusal, Row, Table};

/// What rules A to C leave of a table.
pub struct Left<'a> {
    pub table: &'a Table,
    pub cut: Cut,
    pub sent: Vec<Sent>,
}

/// A way of sending the split rows, in table order, which is by rising first node; and
/// the peak that the ring then has.
#[derive(Clone, PartialEq, Eq, Debug)]
pub struct Tried {
    pub peak: i64,
    pub ways: Vec<Way>,
}

/// A sentence of the rule each: a fault is another reading of one of them.
#[derive(Clone, Copy)]
pub struct Sentences {
    /// Whether more rows are left split than are chosen for.
    pub too_many: fn(&Left) -> bool,
    /// Whether a row, as it is sent, is chosen for.
    pub chosen: fn(&Sent) -> bool,
    /// How a row goes that is not.
    pub whole: fn(&Sent) -> Way,
    /// Whether a way of sending the chosen rows is tried at all.
    pub tried: fn(&Left, &[Way]) -> bool,
    /// The peak, of all rows as they then go.
    pub peak: fn(&Left, &[Way]) -> i64,
    /// Whether one takes the place of the best so far, whichever was met first.
    pub better: fn(&Tried, &Tried) -> bool,
    /// The ways of all rows, in the end.
    pub ways: fn(&Left, Vec<Way>) -> Vec<Way>,
    /// What is said, by the cut, the split routing and these ways.
    pub say: fn(&Left, Vec<Way>) -> Plan,
}

pub const SENTENCES: Sentences = Sentences {
    too_many: |left| split_count(left) > SPLIT,
    chosen: rules::is_split,
    whole,
    tried: |_, _| true,
    peak,
    better,
    ways: |_, ways| ways,
    say,
};

/// Rules A to C.
pub fn left(table: &Table) -> Left<'_> {
    let cut = rules::rule_a(table);
    let mut sent = rules::rule_b(table, cut.across);
    rules::rule_c(&table.rows, &mut sent);
    Left { table, cut, sent }
}

pub fn split_count(left: &Left) -> usize {
    left.sent
        .iter()
        .filter(|sent| rules::is_split(sent))
        .count()
}

/// A row that is not split goes as rule D says.
pub fn whole(sent: &Sent) -> Way {
    if sent.back == 0 {
        Way::F
    } else {
        Way::B
    }
}

pub fn peak(left: &Left, ways: &[Way]) -> i64 {
    peak_of(left.table.n, &left.table.rows, ways)
}

pub fn peak_of(n: i64, rows: &[Row], ways: &[Way]) -> i64 {
    let mut loads = vec![0; n as usize];
    for (row, way) in rows.iter().zip(ways) {
        for (link, load) in (1..).zip(&mut loads) {
            if front_holds(row, link) == (*way == Way::F) {
                *load += row.amount;
            }
        }
    }
    rules::peak(&loads)
}

/// How many rows are turned back.
pub fn back(ways: &[Way]) -> usize {
    ways.iter().filter(|way| **way == Way::B).count()
}

/// Whether the one goes F at the first difference from the other.
pub fn front_first(one: &[Way], other: &[Way]) -> bool {
    let mut both = one.iter().zip(other);
    let difference = both.find(|(one, other)| one != other);
    difference.is_some_and(|(one, _)| *one == Way::F)
}

/// The least peak; among equals the fewest rows turned back; then the one that goes F
/// at the first difference.
pub fn better(new: &Tried, best: &Tried) -> bool {
    let fewer = back(&new.ways).cmp(&back(&best.ways));
    let order = new.peak.cmp(&best.peak).then(fewer);
    order.is_lt() || order.is_eq() && front_first(&new.ways, &best.ways)
}

/// The way of sending so many rows that has a number: the first row has the lowest bit.
fn numbered(count: usize, number: u32) -> Vec<Way> {
    let way = |at| {
        if number >> at & 1 == 0 {
            Way::F
        } else {
            Way::B
        }
    };
    (0..count).map(way).collect()
}

/// The ways of all rows, of which the chosen ones go so.
pub fn together(sent: &[Sent], chosen: &[Way], how: &Sentences) -> Vec<Way> {
    let mut chosen = chosen.iter();
    let way = |row: &Sent| {
        if (how.chosen)(row) {
            *chosen.next().expect("a way for each chosen row")
        } else {
            (how.whole)(row)
        }
    };
    sent.iter().map(way).collect()
}

/// The best of all ways of sending the chosen rows.
pub fn best(left: &Left, how: &Sentences) -> Vec<Way> {
    let count = left.sent.iter().filter(|sent| (how.chosen)(sent)).count();
    let mut best: Option<Tried> = None;
    for number in 0..1_u32 << count {
        let ways = numbered(count, number);
        if !(how.tried)(left, &ways) {
            continue;
        }
        let peak = (how.peak)(left, &together(&left.sent, &ways, how));
        let new = Tried { peak, ways };
        if best.as_ref().is_none_or(|best| (how.better)(&new, best)) {
            best = Some(new);
        }
    }
    best.map_or_else(|| numbered(count, 0), |best| best.ways)
}

fn say(left: &Left, ways: Vec<Way>) -> Plan {
    rules::figures(left.table, left.cut, left.sent.clone(), ways)
}

/// More than 16 rows left split: 23, on line 0.
pub fn plan_left(left: &Left, how: &Sentences) -> Result<Plan, Refusal> {
    if (how.too_many)(left) {
        return refuse(23, 0, 0);
    }
    let ways = together(&left.sent, &best(left, how), how);
    Ok((how.say)(left, (how.ways)(left, ways)))
}

pub fn plan_read(table: &Table, how: &Sentences) -> Result<Plan, Refusal> {
    plan_left(&left(table), how)
}

pub fn plan(table: &Table) -> Result<Plan, Refusal> {
    plan_read(table, &SENTENCES)
}
