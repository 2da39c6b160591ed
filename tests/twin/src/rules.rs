//! The four routing rules, sentence by sentence, in the plainest way.

use crate::family::Family;
use crate::table::{Row, Table};

/// A cut is two links g < h, with its across number.
#[derive(Clone, Copy, PartialEq, Eq, Debug)]
pub struct Cut {
    pub g: i64,
    pub h: i64,
    pub across: i64,
}

/// The front and the back amount of a row, in halves.
#[derive(Clone, Copy, PartialEq, Eq, Debug)]
pub struct Sent {
    pub front: i64,
    pub back: i64,
}

/// An unsplit direction.
#[derive(Clone, Copy, PartialEq, Eq, Debug)]
pub enum Way {
    F,
    B,
}

/// All that the sheet says of a table.
#[derive(Clone, PartialEq, Eq, Debug)]
pub struct Plan {
    pub cut: Cut,
    pub sent: Vec<Sent>,
    pub ways: Vec<Way>,
    /// Loads of links 1..n, at places 0..n-1: split in halves.
    pub split: Vec<i64>,
    /// Unsplit, in units.
    pub unsplit: Vec<i64>,
    pub peak: i64,
    pub size: i64,
}

/// Its front is links i to j-1, its back all other links.
pub fn front_holds(row: &Row, link: i64) -> bool {
    row.first <= link && link < row.second
}

/// The sum of d over the demands whose front holds exactly one of g and h.
pub fn across(rows: &[Row], g: i64, h: i64) -> i64 {
    let mut sum = 0;
    for row in rows {
        let exactly_one = front_holds(row, g) != front_holds(row, h);
        sum += if exactly_one { row.amount } else { 0 };
    }
    sum
}

/// Rule A: the cut with the largest across number M; ties go to the smallest
/// g, then the smallest h.
pub fn rule_a(table: &Table) -> Cut {
    let mut best: Option<Cut> = None;
    for g in 1..=table.n {
        for h in g + 1..=table.n {
            let across = across(&table.rows, g, h);
            if best.is_none_or(|cut| across > cut.across) {
                best = Some(Cut { g, h, across });
            }
        }
    }
    best.expect("a ring of 2 nodes or more has a cut")
}

/// Rule B: each link starts with room M.
pub fn rule_b(table: &Table, m: i64) -> Vec<Sent> {
    send(table, vec![m; table.n as usize + 1])
}

/// Sending by the rooms that links start with, of which that of link 0 is of no use.
/// Front is the smaller of 2d and s/2, back is 2d less front. Then each link's room
/// falls by what was sent over it.
pub fn send(table: &Table, mut room: Vec<i64>) -> Vec<Sent> {
    let mut sent = Vec::new();
    for (at, row) in table.rows.iter().enumerate() {
        let s = least(row, &table.rows[at + 1..], &room);
        let front = (2 * row.amount).min(s / 2);
        let back = 2 * row.amount - front;
        for link in 1..=table.n {
            let over = if front_holds(row, link) { front } else { back };
            room[link as usize] -= over;
        }
        sent.push(Sent { front, back });
    }
    sent
}

/// Rule B's s: over all pairs g <= h of links of the row's front, the least of
/// room(g) + room(h) less twice the across number that the rows not yet sent
/// have there (0 where g = h). The row itself has both links in its front, so
/// it adds nothing and `unsent` may leave it out.
pub fn least(row: &Row, unsent: &[Row], room: &[i64]) -> i64 {
    let mut least: Option<i64> = None;
    for g in row.first..row.second {
        for h in g..row.second {
            let there = if g == h { 0 } else { across(unsent, g, h) };
            let value = room[g as usize] + room[h as usize] - 2 * there;
            if least.is_none_or(|s| value < s) {
                least = Some(value);
            }
        }
    }
    least.expect("a front has a link")
}

/// A demand is split when both are above 0.
pub fn is_split(sent: &Sent) -> bool {
    sent.front > 0 && sent.back > 0
}

/// Two demands cross when their four nodes are distinct and exactly one node
/// of one lies strictly between the nodes of the other.
pub fn cross(one: &Row, two: &Row) -> bool {
    let distinct = one.first != two.first
        && one.first != two.second
        && one.second != two.first
        && one.second != two.second;
    let first_between = one.first < two.first && two.first < one.second;
    let second_between = one.first < two.second && two.second < one.second;
    distinct && first_between != second_between
}

/// Fronts disjoint: no link is in both.
pub fn fronts_disjoint(one: &Row, two: &Row) -> bool {
    one.second <= two.first || two.second <= one.first
}

/// The front of `inner` lies inside the front of `outer`.
pub fn front_inside(inner: &Row, outer: &Row) -> bool {
    outer.first <= inner.first && inner.second <= outer.second
}

/// Rule C: go once through all pairs of rows, the first before the second, by
/// first and then by second. Where both are split at that moment and parallel,
/// move.
pub fn rule_c(rows: &[Row], sent: &mut [Sent]) {
    for first in 0..rows.len() {
        for second in first + 1..rows.len() {
            let both_split = is_split(&sent[first]) && is_split(&sent[second]);
            if both_split && !cross(&rows[first], &rows[second]) {
                move_pair(rows, sent, first, second);
            }
        }
    }
}

/// What rule C moves for one parallel pair.
pub fn move_pair(rows: &[Row], sent: &mut [Sent], first: usize, second: usize) {
    if fronts_disjoint(&rows[first], &rows[second]) {
        // Move the smaller of the two back amounts to the front in both.
        let t = sent[first].back.min(sent[second].back);
        for row in [first, second] {
            sent[row].back -= t;
            sent[row].front += t;
        }
        return;
    }
    // One front lies inside the other. Of two rows with the same nodes the
    // earlier is the outer.
    let (outer, inner) = if front_inside(&rows[second], &rows[first]) {
        (first, second)
    } else {
        (second, first)
    };
    exchange(sent, outer, inner);
}

/// Move t from the outer's front to its back and t from the inner's back to
/// its front, t being the smaller of the outer's front and the inner's back.
pub fn exchange(sent: &mut [Sent], outer: usize, inner: usize) {
    let t = sent[outer].front.min(sent[inner].back);
    sent[outer].front -= t;
    sent[outer].back += t;
    sent[inner].back -= t;
    sent[inner].front += t;
}

/// Let D be the largest amount d of a split row, 0 if none is split.
pub fn largest_split(rows: &[Row], sent: &[Sent]) -> i64 {
    let mut largest = 0;
    for (row, sent) in rows.iter().zip(sent) {
        if is_split(sent) && row.amount > largest {
            largest = row.amount;
        }
    }
    largest
}

/// One row's turn in rule D: its way, and S after it.
pub fn turn(row: &Sent, s: i64, largest: i64) -> (Way, i64) {
    if row.back == 0 {
        (Way::F, s)
    } else if row.front == 0 {
        (Way::B, s)
    } else if s + row.back <= largest {
        (Way::F, s + row.back)
    } else {
        (Way::B, s - row.front)
    }
}

/// Rule D. Table order is by rising first node, so split rows are taken as
/// they come.
pub fn rule_d(rows: &[Row], sent: &[Sent]) -> Vec<Way> {
    let largest = largest_split(rows, sent);
    let mut s = 0;
    let mut ways = Vec::new();
    for row in sent {
        let (way, after) = turn(row, s, largest);
        ways.push(way);
        s = after;
    }
    ways
}

/// The split load of a link is the sum of the amounts sent over it, in halves.
pub fn split_load(rows: &[Row], sent: &[Sent], link: i64) -> i64 {
    let mut sum = 0;
    for (row, sent) in rows.iter().zip(sent) {
        sum += if front_holds(row, link) {
            sent.front
        } else {
            sent.back
        };
    }
    sum
}

/// The unsplit load is the sum of the d sent over it, in units.
pub fn unsplit_load(rows: &[Row], ways: &[Way], link: i64) -> i64 {
    let mut sum = 0;
    for (row, way) in rows.iter().zip(ways) {
        if front_holds(row, link) == (*way == Way::F) {
            sum += row.amount;
        }
    }
    sum
}

/// The smallest size of the family that is at least so much, 0 if none is.
pub fn size(family: Family, least: i64) -> i64 {
    let fitting = family.sizes().into_iter().filter(|size| *size >= least);
    fitting.min().unwrap_or(0)
}

/// What the size has to be at least: with 4 fibres the unsplit peak, with 2
/// twice the unsplit peak (Rules, fibres).
pub fn least_size(table: &Table, peak: i64) -> i64 {
    if table.fibres == 2 {
        return 2 * peak;
    }
    peak
}

pub fn line_size(table: &Table, peak: i64) -> i64 {
    size(table.family, least_size(table, peak))
}

/// A peak is the largest load; 0 where there is none, as on no ring.
pub fn peak(loads: &[i64]) -> i64 {
    loads.iter().copied().max().unwrap_or(0)
}

/// The figures that follow from a cut, a split routing and directions.
pub fn figures(table: &Table, cut: Cut, sent: Vec<Sent>, ways: Vec<Way>) -> Plan {
    let links = 1..=table.n;
    let rows = &table.rows;
    let split = links.clone().map(|k| split_load(rows, &sent, k)).collect();
    let unsplit: Vec<i64> = links.map(|k| unsplit_load(rows, &ways, k)).collect();
    let peak = peak(&unsplit);
    Plan {
        cut,
        sent,
        ways,
        split,
        unsplit,
        peak,
        size: line_size(table, peak),
    }
}

/// The four routing rules, one after the other.
pub fn plan(table: &Table) -> Plan {
    let cut = rule_a(table);
    let mut sent = rule_b(table, cut.across);
    rule_c(&table.rows, &mut sent);
    let ways = rule_d(&table.rows, &sent);
    figures(table, cut, sent, ways)
}
