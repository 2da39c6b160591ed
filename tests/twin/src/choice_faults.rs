//! Faults of the best choice: another reading of one sentence, or another reply. And
//! what comes to the same.

use crate::choice::{
    self, back, better, front_first, split_count, Left, Sentences, Tried, SENTENCES,
};
use crate::limits::SPLIT;
use crate::mutant::{choosing, replying, Mutant};
use crate::rules::{self, Plan, Way};
use crate::sheet;
use crate::table::{self, Refusal, Table};
use crate::twin::{self, Answer, Call, Reply};

/// One sentence read otherwise, as a fault with this name.
macro_rules! reading {
    ($name:literal, $($sentence:ident: $other:expr),+) => {
        choosing(
            $name,
            Sentences {
                $($sentence: $other,)+
                ..SENTENCES
            },
        )
    };
}

fn rule_d(left: &Left) -> Vec<Way> {
    rules::rule_d(&left.table.rows, &left.sent)
}

/// Rule D's ways in the place of the best choice's, where `when` says so of both.
fn by_rule_d(left: &Left, ways: Vec<Way>, when: fn(&Left, &[Way], &[Way]) -> bool) -> Vec<Way> {
    let others = rule_d(left);
    if when(left, &ways, &others) {
        others
    } else {
        ways
    }
}

/// By the peak, then by how many rows are turned back as `count` has it, then `first`.
fn in_order(
    new: &Tried,
    best: &Tried,
    count: fn(&[Way]) -> usize,
    first: fn(&[Way], &[Way]) -> bool,
) -> bool {
    let order = new.peak.cmp(&best.peak);
    let order = order.then(count(&new.ways).cmp(&count(&best.ways)));
    order.is_lt() || order.is_eq() && first(&new.ways, &best.ways)
}

fn back_first(one: &[Way], other: &[Way]) -> bool {
    front_first(other, one)
}

/// The first difference, seen from the last row.
fn from_last(one: &[Way], other: &[Way]) -> bool {
    let turned = |ways: &[Way]| ways.iter().rev().copied().collect::<Vec<_>>();
    front_first(&turned(one), &turned(other))
}

fn front(ways: &[Way]) -> usize {
    ways.len() - back(ways)
}

fn none(_: &[Way]) -> usize {
    0
}

/// The peak of the split rows by themselves.
fn split_peak(left: &Left, ways: &[Way]) -> i64 {
    let rows = left.table.rows.iter().zip(&left.sent).zip(ways);
    let split = rows.filter(|((_, sent), _)| rules::is_split(sent));
    let (rows, ways): (Vec<_>, Vec<_>) = split.map(|((row, _), way)| (*row, *way)).unzip();
    choice::peak_of(left.table.n, &rows, &ways)
}

/// The peak of all links but the last.
fn without_last(left: &Left, ways: &[Way]) -> i64 {
    let links = 1..left.table.n;
    let loads = links.map(|link| rules::unsplit_load(&left.table.rows, ways, link));
    loads.max().unwrap_or(0)
}

/// The peak of the links of the cut alone.
fn of_cut(left: &Left, ways: &[Way]) -> i64 {
    let links = [left.cut.g, left.cut.h];
    let loads = links.map(|link| rules::unsplit_load(&left.table.rows, ways, link));
    rules::peak(&loads)
}

fn all_loads(left: &Left, ways: &[Way]) -> i64 {
    let links = 1..=left.table.n;
    let loads = links.map(|link| rules::unsplit_load(&left.table.rows, ways, link));
    loads.sum()
}

fn in_bits(bits: u32, left: &Left, ways: &[Way]) -> i64 {
    let links = 1..=left.table.n;
    let loads = links.map(|link| rules::unsplit_load(&left.table.rows, ways, link));
    loads.map(|load| load % (1 << bits)).max().unwrap_or(0)
}

/// A bound that this way alone keeps: half of what it can be.
fn line_peak(left: &Left, ways: &[Way]) -> i64 {
    rules::line_size(left.table, choice::peak(left, ways)).max(1)
}

fn plan_of(left: &Left, ways: Vec<Way>) -> Plan {
    rules::figures(left.table, left.cut, left.sent.clone(), ways)
}

fn with_peak_of_rule_d(left: &Left, ways: Vec<Way>) -> Plan {
    let peak = choice::peak(left, &rule_d(left));
    Plan {
        peak,
        ..plan_of(left, ways)
    }
}

fn with_size_of_rule_d(left: &Left, ways: Vec<Way>) -> Plan {
    let peak = choice::peak(left, &rule_d(left));
    Plan {
        size: rules::line_size(left.table, peak),
        ..plan_of(left, ways)
    }
}

/// The loads of rule D's ways.
fn with_loads_of_rule_d(left: &Left, ways: Vec<Way>) -> Plan {
    Plan {
        unsplit: plan_of(left, rule_d(left)).unsplit,
        ..plan_of(left, ways)
    }
}

/// The split routing as the whole rows go: everything is sent on its way.
fn with_whole_split(left: &Left, ways: Vec<Way>) -> Plan {
    let mut sent = left.sent.clone();
    for (sent, way) in sent.iter_mut().zip(&ways) {
        let both = sent.front + sent.back;
        (sent.front, sent.back) = if *way == Way::F { (both, 0) } else { (0, both) };
    }
    rules::figures(left.table, left.cut, sent, ways)
}

fn is_many(answer: &Answer) -> bool {
    matches!(answer, Err(refusal) if refusal.reason == 23)
}

/// The reply to another refusal where the answer is 23.
fn many_as(answer: &Answer, refusal: Refusal, buffer: &mut [u8]) -> Reply {
    if is_many(answer) {
        return twin::refused(&refusal);
    }
    twin::reply(answer, buffer)
}

/// What rule D would write of the table, whatever is left split.
fn by_four_rules(text: &[u8]) -> Option<Vec<u8>> {
    let table: Table = table::read(text).ok()?;
    Some(sheet::sheet_text(&table, &rules::plan(&table)))
}

/// 23 of a table that is refused for a row's amount.
fn many_before_amounts(text: &[u8], answer: &Answer) -> bool {
    let amount = matches!(answer, Err(refusal) if refusal.reason == 7);
    let low = text.split(|byte| *byte == b'\n');
    let rows = low.filter(|line| line.starts_with(b"D")).count();
    amount && rows > SPLIT
}

const MANY: Refusal = Refusal {
    reason: 23,
    line: 0,
    byte: 0,
};

pub static CHOICE_FAULTS: [Mutant; 41] = [
    reading! { "best: the last of equals", better: |new, best| in_order(new, best, back, back_first) },
    reading! { "best: the first difference from the last row", better: |new, best| in_order(new, best, back, from_last) },
    reading! { "best: the most turned back", better: |new, best| in_order(new, best, front, front_first) },
    reading! { "best: how many are turned back not looked at", better: |new, best| in_order(new, best, none, front_first) },
    reading! { "best: how many are turned back before the peak", better: |new, best| {
        let fewer = back(&new.ways).cmp(&back(&best.ways)).then(new.peak.cmp(&best.peak));
        fewer.is_lt() || fewer.is_eq() && front_first(&new.ways, &best.ways)
    } },
    reading! { "best: the largest peak", better: |new, best| {
        new.peak > best.peak || new.peak == best.peak && better(new, best)
    } },
    reading! { "best: of equal peaks the last that is met", better: |new, best| new.peak <= best.peak },
    reading! { "best: of equal peaks the first that is met", better: |new, best| new.peak < best.peak },
    reading! { "best: all front not tried", tried: |_, ways| ways.is_empty() || back(ways) > 0 },
    reading! { "best: all back not tried", tried: |_, ways| ways.is_empty() || front(ways) > 0 },
    reading! { "best: the first row never back", tried: |_, ways| ways.first() != Some(&Way::B) },
    reading! { "best: the last row never back", tried: |_, ways| ways.last() != Some(&Way::B) },
    reading! { "best: more than half never back", tried: |_, ways| 2 * back(ways) <= ways.len() },
    reading! { "best: one row back at most", tried: |_, ways| back(ways) <= 1 },
    reading! { "best: 15 split rows are too many", too_many: |left| split_count(left) >= 15 },
    reading! { "best: 16 split rows are too many", too_many: |left| split_count(left) >= SPLIT },
    reading! { "best: 17 split rows are chosen for", too_many: |left| split_count(left) > SPLIT + 1 },
    reading! { "best: 16 rows are too many, split or not", too_many: |left| left.sent.len() > SPLIT },
    reading! { "best: rows split before rule C counted", too_many: |left| {
        let sent = rules::rule_b(left.table, left.cut.across);
        sent.iter().filter(|sent| rules::is_split(sent)).count() > SPLIT
    } },
    reading! { "best: rule D in its place", ways: |left, ways| by_rule_d(left, ways, |_, _, _| true) },
    reading! { "best: rule D's ways where its peak is as low", ways: |left, ways| {
        by_rule_d(left, ways, |left, ways, others| choice::peak(left, others) <= choice::peak(left, ways))
    } },
    reading! { "best: rows that are not split all front", whole: |_| Way::F },
    reading! { "best: rows of amount 0 back", whole: |sent| if sent.front == 0 { Way::B } else { Way::F } },
    reading! { "best: the peak of the split rows alone", peak: split_peak },
    reading! { "best: link n not looked at", peak: without_last },
    reading! { "best: the links of the cut alone", peak: of_cut },
    reading! { "best: the sum of all loads", peak: all_loads },
    reading! { "best: loads in 16 bits", peak: |left, ways| in_bits(16, left, ways) },
    reading! { "best: loads in 8 bits", peak: |left, ways| in_bits(8, left, ways) },
    reading! { "best: the smallest line size", peak: line_peak },
    reading! { "best: rule D's peak said", say: with_peak_of_rule_d },
    reading! { "best: the size of rule D's peak", say: with_size_of_rule_d },
    reading! { "best: the loads of rule D's ways", say: with_loads_of_rule_d },
    reading! { "best: whole rows in the split routing", say: with_whole_split },
    replying(
        "best: 23 on line 1",
        Call::RouteBest,
        |_, answer, buffer| many_as(answer, Refusal { line: 1, ..MANY }, buffer),
    ),
    replying(
        "best: 23 with byte 1",
        Call::RouteBest,
        |_, answer, buffer| many_as(answer, Refusal { byte: 1, ..MANY }, buffer),
    ),
    replying("best: 16 for 23", Call::RouteBest, |_, answer, buffer| {
        many_as(answer, Refusal { reason: 16, ..MANY }, buffer)
    }),
    replying(
        "best: rule D's sheet for 23",
        Call::RouteBest,
        |text, answer, buffer| {
            if let (true, Some(sheet)) = (is_many(answer), by_four_rules(text)) {
                return twin::reply(&Ok(twin::written(sheet)), buffer);
            }
            twin::reply(answer, buffer)
        },
    ),
    replying(
        "best: 15 before 23",
        Call::RouteBest,
        |text, answer, buffer| {
            let need = by_four_rules(text).map_or(0, |sheet| sheet.len());
            let short = is_many(answer) && buffer.len() < need;
            many_as(answer, if short { twin::NO_ROOM } else { MANY }, buffer)
        },
    ),
    replying(
        "best: 23 before 7",
        Call::RouteBest,
        |text, answer, buffer| {
            if many_before_amounts(text, answer) {
                return twin::refused(&MANY);
            }
            twin::reply(answer, buffer)
        },
    ),
    replying(
        "best: 23 writes by rule D",
        Call::RouteBest,
        |text, answer, buffer| {
            if let (true, Some(sheet)) = (is_many(answer), by_four_rules(text)) {
                let length = sheet.len().min(buffer.len());
                buffer[..length].copy_from_slice(&sheet[..length]);
            }
            twin::reply(answer, buffer)
        },
    ),
];

/// Readings that come to the same.
pub static CHOICE_SAME: [Mutant; 2] = [
    // rule D's is one of the choices, so that none above it is the best
    reading! { "best: choices above rule D's peak passed over", tried: |left, ways| {
        let ways = choice::together(&left.sent, ways, &SENTENCES);
        choice::peak(left, &ways) <= choice::peak(left, &rule_d(left))
    } },
    // split rows cross each other, so that there are at most half as many as offices
    reading! { "best: 23 of 34 offices and more alone", too_many: |left| {
        left.table.n >= 34 && split_count(left) > SPLIT
    } },
];
