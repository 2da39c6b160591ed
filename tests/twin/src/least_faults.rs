//! Faults of the least of five rules: another reading of one sentence, or another thing done
//! with the lent ways. And what comes to the same.

use crate::choice;
use crate::least::{floor, sent, Least, LeastReply, Rule, Sentences, Whole, RULES, SENTENCES};
use crate::lowered;
use crate::mutant::{least, saying, Mutant};
use crate::rules;
use crate::table::{self, Table};
use crate::turns::{other, WAYS};

/// One sentence read otherwise, as a fault with this name.
macro_rules! reading {
    ($name:literal, $sentence:ident: $other:expr) => {
        least(
            $name,
            Sentences {
                $sentence: $other,
                ..SENTENCES
            },
        )
    };
}

/// All rules but one.
fn without(left_out: Rule) -> Vec<Rule> {
    RULES.into_iter().filter(|rule| *rule != left_out).collect()
}

/// Rule D by level rooms goes before the best choice by lowered ones: engine by engine.
fn by_engine(_: &Table) -> Vec<Rule> {
    vec![
        Rule::Turns,
        Rule::Best,
        Rule::RuleD,
        Rule::LoweredBest,
        Rule::LoweredRuleD,
    ]
}

fn lowered_first(_: &Table) -> Vec<Rule> {
    vec![
        Rule::Turns,
        Rule::LoweredBest,
        Rule::Best,
        Rule::LoweredRuleD,
        Rule::RuleD,
    ]
}

/// What the best choice comes to is there only where that by other rooms is.
fn where_both(table: &Table, rule: Rule) -> Option<Whole> {
    sent(table, Rule::Best)?;
    sent(table, Rule::LoweredBest)?;
    sent(table, rule)
}

/// The best choice is there where rule D's routing by these rooms leaves few rows split.
fn choice_where(table: &Table, rule: Rule, there: fn(usize, usize) -> bool) -> Option<Whole> {
    let level = choice::split_count(&choice::left(table));
    let low = choice::split_count(&lowered::left(table, &lowered::SENTENCES));
    let (own, others) = match rule {
        Rule::Best => (level, low),
        Rule::LoweredBest => (low, level),
        _ => return sent(table, rule),
    };
    if there(own, others) {
        sent(table, rule)
    } else {
        None
    }
}

/// The ways of another rule, where it has the same peak.
fn ways_of_last(table: &Table, least: Least) -> Least {
    let mut later = RULES.iter().rev().filter_map(|rule| sent(table, *rule));
    let whole = later.find(|whole| whole.peak == least.whole.peak);
    Least {
        whole: whole.unwrap_or(least.whole),
        ..least
    }
}

pub static LEAST_FAULTS: [Mutant; 32] = [
    reading! { "least: the largest", better: |new, least| new.peak > least.peak },
    reading! { "least: ties to the later", better: |new, least| new.peak <= least.peak },
    reading! { "least: fewer rows back win ties", better: |new, least| {
        let back = |whole: &Whole| choice::back(&whole.ways);
        (new.peak, back(new)) < (least.peak, back(least))
    } },
    reading! { "least: lower by a tenth alone", better: |new, least| 10 * new.peak <= 9 * least.peak },
    reading! { "least: the turns left out", rules: |_| without(Rule::Turns) },
    reading! { "least: the best choice left out", rules: |_| without(Rule::Best) },
    reading! { "least: the best choice by lowered rooms left out", rules: |_| without(Rule::LoweredBest) },
    reading! { "least: rule D left out", rules: |_| without(Rule::RuleD) },
    reading! { "least: rule D by lowered rooms left out", rules: |_| without(Rule::LoweredRuleD) },
    reading! { "least: the turns alone", rules: |_| vec![Rule::Turns] },
    reading! { "least: rule D alone", rules: |_| vec![Rule::RuleD] },
    reading! { "least: in the opposite order", rules: |_| RULES.into_iter().rev().collect() },
    reading! { "least: engine by engine", rules: by_engine },
    reading! { "least: lowered rooms before level ones", rules: lowered_first },
    reading! { "least: the turns last", rules: |_| {
        let others = RULES[1..].iter().copied();
        others.chain([Rule::Turns]).collect()
    } },
    reading! { "least: the best choice for 15 split rows at most", sent: |table, rule| choice_where(table, rule, |own, _| own < 16) },
    reading! { "least: the best choice by what the other rooms leave split", sent: |table, rule| choice_where(table, rule, |own, others| own <= 16 && others <= 16) },
    reading! { "least: the turns alone where a best choice is missing", sent: |table, rule| match rule {
        Rule::Turns => sent(table, rule),
        _ => where_both(table, rule),
    } },
    reading! { "least: the floor rounded down", floor: |table| rules::rule_a(table).across / 2 },
    reading! { "least: the floor is M", floor: |table| rules::rule_a(table).across },
    reading! { "least: the floor one higher", floor: |table| floor(table) + 1 },
    reading! { "least: the floor for the peak", say: |_, least| Least {
        whole: Whole { peak: least.floor, ..least.whole },
        ..least
    } },
    reading! { "least: the ways of the last that has the peak", say: ways_of_last },
    reading! { "least: the ways of rule D", say: |table, least| Least {
        whole: Whole { ways: rules::plan(table).ways, ..least.whole },
        ..least
    } },
    reading! { "least: the first row the other way", say: |_, mut least| {
        if let Some(way) = least.whole.ways.first_mut() {
            *way = other(*way);
        }
        least
    } },
    saying("least: rules from 0", |_, reply, _| LeastReply {
        rule: reply.rule.saturating_sub(1),
        ..reply
    }),
    saying(
        "least: the way behind the rows cleared",
        |_, reply, ways| {
            if let Some(way) = ways.get_mut(reply.rows).filter(|_| reply.reason == 0) {
                *way = 0;
            }
            reply
        },
    ),
    saying("least: a refusal clears the first way", |_, reply, ways| {
        ways[0] *= u8::from(reply.reason == 0);
        reply
    }),
    saying("least: 1 for F and 0 for B", |_, reply, ways| {
        ways[..reply.rows]
            .iter_mut()
            .for_each(|way| *way = 1 - *way);
        reply
    }),
    saying("least: all 1,024 rows said", |_, reply, _| LeastReply {
        rows: reply.rows.max(WAYS),
        ..reply
    }),
    saying(
        "least: 23 where a best choice is missing",
        |text, reply, _| {
            let table = table::read(text);
            let missing = table.is_ok_and(|table| {
                [Rule::Best, Rule::LoweredBest]
                    .iter()
                    .any(|rule| sent(&table, *rule).is_none())
            });
            if missing {
                LeastReply::of([23, 0, 0, 0, 0, 0, 0])
            } else {
                reply
            }
        },
    ),
    saying("least: a refusal says the last rule", |_, reply, _| {
        LeastReply {
            rule: if reply.reason == 0 { reply.rule } else { 5 },
            ..reply
        }
    }),
];

/// Readings that come to the same.
pub static LEAST_SAME: [Mutant; 2] = [
    // no later rule has a lower peak than the floor, and ties go to the first
    reading! { "least: ends at the floor", rules: |table| {
        let reached = |rule: &Rule| sent(table, *rule).is_some_and(|whole| whole.peak == floor(table));
        match RULES.iter().position(reached) {
            Some(at) => RULES[..=at].to_vec(),
            None => RULES.to_vec(),
        }
    } },
    // the best choice is never above rule D, and named before it
    reading! { "least: rule D where the best choice is missing alone", rules: |table| {
        let needed = |rule: &Rule| match rule {
            Rule::RuleD => sent(table, Rule::Best).is_none(),
            Rule::LoweredRuleD => sent(table, Rule::LoweredBest).is_none(),
            _ => true,
        };
        RULES.into_iter().filter(needed).collect()
    } },
];
