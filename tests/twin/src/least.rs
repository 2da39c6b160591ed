//! The least of five rules (Rules, the least of five rules), sentence by sentence: the rows
//! are sent by every rule, whatever was found before.

use crate::choice;
use crate::lowered;
use crate::rules::{self, Plan, Way};
use crate::table::{self, Refusal, Table};
use crate::turns::{self, byte};

/// The rules by which rows are sent whole.
#[derive(Clone, Copy, PartialEq, Eq, Debug)]
pub enum Rule {
    Turns,
    Best,
    LoweredBest,
    RuleD,
    LoweredRuleD,
}

/// In the order in which ties go.
pub const RULES: [Rule; 5] = [
    Rule::Turns,
    Rule::Best,
    Rule::LoweredBest,
    Rule::RuleD,
    Rule::LoweredRuleD,
];

impl Rule {
    /// As the answer names it: from 1, in that order.
    pub fn number(self) -> u32 {
        let place = RULES.iter().position(|rule| *rule == self);
        place.expect("a rule") as u32 + 1
    }
}

/// How all rows go, and the peak that they then have.
#[derive(Clone, PartialEq, Eq, Debug)]
pub struct Whole {
    pub ways: Vec<Way>,
    pub peak: i64,
}

impl From<Plan> for Whole {
    fn from(plan: Plan) -> Whole {
        let Plan { ways, peak, .. } = plan;
        Whole { ways, peak }
    }
}

/// The least that was come to, by which rule, and below what no peak is.
#[derive(Clone, PartialEq, Eq, Debug)]
pub struct Least {
    pub whole: Whole,
    pub rule: Rule,
    pub floor: i64,
}

/// A sentence of the rule each: a fault is another reading of one of them.
#[derive(Clone, Copy)]
pub struct Sentences {
    /// The rules that are tried, in their order.
    pub rules: fn(&Table) -> Vec<Rule>,
    /// What one comes to; None where it is not there for the table.
    pub sent: fn(&Table, Rule) -> Option<Whole>,
    /// Whether one takes the place of the least before it.
    pub better: fn(&Whole, &Whole) -> bool,
    pub floor: fn(&Table) -> i64,
    /// What is said of the table, in the end.
    pub say: fn(&Table, Least) -> Least,
}

pub const SENTENCES: Sentences = Sentences {
    rules: |_| RULES.to_vec(),
    sent,
    better: |new, least| new.peak < least.peak,
    floor,
    say: |_, least| least,
};

/// What a rule comes to, as its own call has it. The best choice is there where at most 16
/// rows are left split.
pub fn sent(table: &Table, rule: Rule) -> Option<Whole> {
    Some(match rule {
        Rule::Turns => {
            let turned = turns::answer(table);
            Whole {
                ways: turned.ways,
                peak: turned.peak,
            }
        }
        Rule::Best => choice::plan(table).ok()?.into(),
        Rule::LoweredBest => lowered::best_plan(table).ok()?.into(),
        Rule::RuleD => rules::plan(table).into(),
        Rule::LoweredRuleD => lowered::plan(table).into(),
    })
}

/// M/2 rounded up.
pub fn floor(table: &Table) -> i64 {
    (rules::rule_a(table).across + 1) / 2
}

/// The least peak that a rule comes to; ties go to the rule that is tried first.
pub fn answer_read(table: &Table, how: &Sentences) -> Least {
    let mut least: Option<(Whole, Rule)> = None;
    for rule in (how.rules)(table) {
        let Some(new) = (how.sent)(table, rule) else {
            continue;
        };
        if least
            .as_ref()
            .is_none_or(|(least, _)| (how.better)(&new, least))
        {
            least = Some((new, rule));
        }
    }
    let (whole, rule) = least.expect("a rule that is there for every table");
    let floor = (how.floor)(table);
    (how.say)(table, Least { whole, rule, floor })
}

pub fn answer(table: &Table) -> Least {
    answer_read(table, &SENTENCES)
}

/// The reply of the call: of a refusal all but reason, line and byte is 0.
#[repr(C)]
#[derive(Clone, Copy, PartialEq, Eq, Default, Debug)]
pub struct LeastReply {
    pub reason: u32,
    pub line: u32,
    pub byte: u32,
    pub peak: u32,
    pub floor: u32,
    pub rule: u32,
    pub rows: usize,
}

impl LeastReply {
    /// From its numbers, in their order.
    pub fn of([reason, line, byte, peak, floor, rule, rows]: [u32; 7]) -> LeastReply {
        LeastReply {
            reason,
            line,
            byte,
            peak,
            floor,
            rule,
            rows: rows as usize,
        }
    }
}

/// The first bytes of the ways become 0 for F or 1 for B, those behind them stay; a
/// refusal changes none.
pub fn reply(answer: &Result<Least, Refusal>, ways: &mut [u8]) -> LeastReply {
    match answer {
        Err(refusal) => LeastReply {
            reason: refusal.reason,
            line: refusal.line,
            byte: refusal.byte,
            ..LeastReply::default()
        },
        Ok(least) => {
            for (lent, way) in ways.iter_mut().zip(&least.whole.ways) {
                *lent = byte(way);
            }
            LeastReply {
                peak: least.whole.peak as u32,
                floor: least.floor as u32,
                rule: least.rule.number(),
                rows: least.whole.ways.len(),
                ..LeastReply::default()
            }
        }
    }
}

/// What the call answers, and what it leaves in the lent ways.
pub fn least(text: &[u8], ways: &mut [u8]) -> LeastReply {
    reply(&table::read(text).map(|table| answer(&table)), ways)
}
