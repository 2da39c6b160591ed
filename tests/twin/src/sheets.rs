//! The groups of sheets: whole lists first, then sheets of ours, sheets of
//! other tools, and damaged texts.

use crate::bars::tabbed;
use crate::compare::{Case, Lend, NONE};
use crate::family::FAMILIES;
use crate::foreign;
use crate::gen::{self, Amounts};
use crate::groups::{of_text, ENOUGH, LENDS, SHORT};
use crate::limits::ROWS;
use crate::rng::Rng;
use crate::rules::{self, Plan, Sent, Way};
use crate::sheet::{sheet_text, table_text};
use crate::table::{Row, Table};
use crate::twin::Call;

/// All five calls, with buffers of every length around the need.
fn all_trials() -> Vec<(Call, Lend)> {
    let rewrite = LENDS.map(|lend| (Call::RewriteSheet, lend));
    let others = [
        (Call::Check, NONE),
        (Call::Parallel, NONE),
        (Call::Route, Lend::Need(1)),
        (Call::Rewrite, Lend::Need(1)),
    ];
    [rewrite.as_slice(), &others].concat()
}

/// The three calls of a sheet; the buffer is short one time out of three. One
/// time out of twelve the calls of a table, which refuse a sheet, as well.
fn some_trials(rng: &mut Rng) -> Vec<(Call, Lend)> {
    let short = rng.chance(1, 3);
    let lend = rng.pick(if short { &SHORT } else { &ENOUGH });
    let mut trials = vec![
        (Call::Check, NONE),
        (Call::Parallel, NONE),
        (Call::RewriteSheet, lend),
    ];
    if rng.chance(1, 12) {
        trials.push((Call::Route, rng.pick(&LENDS)));
        trials.push((Call::Rewrite, rng.pick(&LENDS)));
    }
    trials
}

fn of_plan(table: &Table, plan: &Plan, trials: Vec<(Call, Lend)>) -> Option<Case> {
    Some(Case {
        offices: table.n,
        text: sheet_text(table, plan),
        trials,
    })
}

/// The square, two offices with no rows and with 1-2 of 5, four with 1-2 of 1,
/// the ring of five and the ring of eight; sizes 768 and 0; 13 and 14; amount 0
/// with F and with B; rings of 1, 65 and 64; a parallel pair. Then circuits of
/// the same offices: two whole, both split, split behind a whole one and behind
/// a row that crosses them; and a row below them. Then fibres, and a size that is large
/// enough but not the smallest. Then families: sizes and their ends, each with the other's
/// size, and M spelled otherwise.
pub const SHEETS: [&str; 53] = [
    "R|4|4\nD|1|3|1|1|1|F\nD|2|4|1|1|1|B\nC|1|3|2\nL|1|2|2\nL|2|2|1\nL|3|2|0\nL|4|2|1\nZ|2|3\n",
    "R|2|4\nC|1|2|0\nL|1|0|0\nL|2|0|0\nZ|0|3\n",
    "R|2|4\nD|1|2|5|5|5|F\nC|1|2|5\nL|1|5|5\nL|2|5|0\nZ|5|12\n",
    "R|4|4\nD|1|2|1|1|1|F\nC|1|2|1\nL|1|1|1\nL|2|1|0\nL|3|1|0\nL|4|1|0\nZ|1|3\n",
    "R|5|4\nD|1|2|2|4|0|F\nD|1|4|5|0|10|B\nD|2|3|9|18|0|F\nD|2|4|11|10|12|B\nD|3|4|4|8|0|F\n\
     D|3|5|3|6|0|F\nC|2|4|28\nL|1|16|13\nL|2|28|9\nL|3|24|7\nL|4|28|19\nL|5|22|16\nZ|19|48\n",
    "R|8|4\nD|1|4|1|2|0|F\nD|2|3|1|2|0|F\nD|5|8|2|4|0|F\nD|6|7|2|2|2|F\nC|2|6|6\nL|1|4|1\n\
     L|2|6|2\nL|3|4|1\nL|4|2|0\nL|5|6|2\nL|6|6|4\nL|7|6|2\nL|8|2|0\nZ|4|12\n",
    "R|2|4\nD|1|2|768|768|768|F\nC|1|2|768\nL|1|768|768\nL|2|768|0\nZ|768|768\n",
    "R|2|4\nD|1|2|769|769|769|F\nC|1|2|769\nL|1|769|769\nL|2|769|0\nZ|769|0\n",
    "R|4|4\nD|1|2|1|0|2|B\nC|1|2|1\nL|1|0|0\nL|2|2|1\nL|3|2|1\nL|4|2|1\nZ|1|3\n",
    "R|8|4\nD|1|5|1|1|1|F\nD|2|6|1|1|1|F\nD|3|7|1|1|1|F\nD|4|8|1|1|1|F\nC|4|8|4\nL|1|4|1\n\
     L|2|4|2\nL|3|4|3\nL|4|4|4\nL|5|4|3\nL|6|4|2\nL|7|4|1\nL|8|4|0\nZ|4|12\n",
    "R|2|4\nD|1|2|0|0|0|F\nC|1|2|0\nL|1|0|0\nL|2|0|0\nZ|0|3\n",
    "R|2|4\nD|1|2|0|0|0|B\nC|1|2|0\nL|1|0|0\nL|2|0|0\nZ|0|3\n",
    "R|1|4\nC|1|1|0\nL|1|0|0\nZ|0|3\n",
    "R|65|4\nC|1|2|0\nL|1|0|0\nL|2|0|0\nZ|0|3\n",
    "R|2|4\nD|1|2|9999|9999|9999|F\nC|1|2|9999\nL|1|9999|9999\nL|2|9999|0\nZ|9999|0\n",
    "R|2|4\nD|1|2|10000|10000|10000|F\nC|1|2|10000\nL|1|10000|10000\nL|2|10000|0\nZ|10000|0\n",
    "R|4|4\nD|5|2|10000|0|0|B\nC|1|2|0\nL|1|0|0\n",
    "",
    "R|4|4\n",
    "R|3|4\nD|1|2|1|1|1|F\nD|1|3|1|1|1|B\nC|1|3|2\nL|1|2|1\nL|2|2|0\nL|3|2|1\nZ|1|3\n",
    "R|2|4\nD|1|2|1|2|0|F\nD|1|2|1|0|2|B\nC|1|2|2\nL|1|2|1\nL|2|2|1\nZ|1|3\n",
    "R|2|4\nD|1|2|1|1|1|F\nD|1|2|1|1|1|B\nC|1|2|2\nL|1|2|1\nL|2|2|1\nZ|1|3\n",
    "R|2|4\nD|1|2|1|2|0|F\nD|1|2|2|1|3|B\nD|1|2|1|1|1|F\nC|1|2|4\nL|1|4|2\nL|2|4|2\nZ|2|3\n",
    "R|4|4\nD|1|3|1|1|1|F\nD|2|4|1|1|1|F\nD|2|4|1|1|1|B\nC|1|3|3\nL|1|3|2\nL|2|3|2\nL|3|3|1\n\
     L|4|3|1\nZ|2|3\n",
    "R|3|4\nD|1|3|1|2|0|F\nD|1|3|1|0|2|B\nD|1|2|0|0|0|F\nC|1|3|2\nL|1|2|1\nL|2|2|1\nL|3|2|1\nZ|1|3\n",
    "R|2|2\nC|1|2|0\nL|1|0|0\nL|2|0|0\nZ|0|3\n",
    "R|2|2\nD|1|2|384|384|384|F\nC|1|2|384\nL|1|384|384\nL|2|384|0\nZ|384|768\n",
    "R|2|2\nD|1|2|385|385|385|F\nC|1|2|385\nL|1|385|385\nL|2|385|0\nZ|385|0\n",
    "R|2|2\nD|1|2|2|2|2|F\nC|1|2|2\nL|1|2|2\nL|2|2|0\nZ|2|3\n",
    "R|2|3\nC|1|2|0\nL|1|0|0\nL|2|0|0\nZ|0|3\n",
    "R|65|3\nC|1|2|0\nL|1|0|0\nL|2|0|0\nZ|0|3\n",
    "R|1|0\nC|1|1|0\nL|1|0|0\nZ|0|3\n",
    "R|2\nC|1|2|0\nL|1|0|0\nL|2|0|0\nZ|0|3\n",
    "R|2|4|4\nC|1|2|0\nL|1|0|0\nL|2|0|0\nZ|0|3\n",
    "R|2|4\nC|1|2|0\nL|1|0|0\nL|2|0|0\nZ|0|12\n",
    "R|4|4|M\nD|1|3|1|1|1|F\nD|2|4|1|1|1|B\nC|1|3|2\nL|1|2|2\nL|2|2|1\nL|3|2|0\nL|4|2|1\nZ|2|4\n",
    "R|2|4|M\nC|1|2|0\nL|1|0|0\nL|2|0|0\nZ|0|1\n",
    "R|2|4|M\nD|1|2|256|256|256|F\nC|1|2|256\nL|1|256|256\nL|2|256|0\nZ|256|256\n",
    "R|2|4|M\nD|1|2|257|257|257|F\nC|1|2|257\nL|1|257|257\nL|2|257|0\nZ|257|0\n",
    "R|2|2|M\nD|1|2|128|128|128|F\nC|1|2|128\nL|1|128|128\nL|2|128|0\nZ|128|256\n",
    "R|2|2|M\nD|1|2|129|129|129|F\nC|1|2|129\nL|1|129|129\nL|2|129|0\nZ|129|0\n",
    "R|2|4|M\nC|1|2|0\nL|1|0|0\nL|2|0|0\nZ|0|3\n",
    "R|2|4\nC|1|2|0\nL|1|0|0\nL|2|0|0\nZ|0|1\n",
    "R|2|4|m\nC|1|2|0\nL|1|0|0\nL|2|0|0\nZ|0|1\n",
    "R|2|4|\nC|1|2|0\nL|1|0|0\nL|2|0|0\nZ|0|1\n",
    "R|2|4|M|\nC|1|2|0\nL|1|0|0\nL|2|0|0\nZ|0|1\n",
    "R|2|4|MM\nC|1|2|0\nL|1|0|0\nL|2|0|0\nZ|0|1\n",
    "R|2|4||M\nC|1|2|0\nL|1|0|0\nL|2|0|0\nZ|0|1\n",
    "R|2|M|4\nC|1|2|0\nL|1|0|0\nL|2|0|0\nZ|0|1\n",
    "R|2|M\nC|1|2|0\nL|1|0|0\nL|2|0|0\nZ|0|1\n",
    "R|2|3|M\nC|1|2|0\nL|1|0|0\nL|2|0|0\nZ|0|1\n",
    "R|65|4|M\nC|1|2|0\nL|1|0|0\nL|2|0|0\nZ|0|1\n",
    "R|2|4|M",
];

/// The square of SDH.
const OF_SDH: &str = SHEETS[35];

pub fn stated(_: &mut Rng, case: u64) -> Option<Case> {
    let text = SHEETS.get(case as usize)?;
    of_text(text, all_trials())
}

/// All rings of 3 offices whose pairs are left out or have 1, with every split,
/// every way and every cut, then all of 4 offices with every split, rule D's
/// ways and the last of the largest cuts. Figures are true.
pub fn all_small(_: &mut Rng, case: u64) -> Option<Case> {
    let of_3 = 3 * 7_usize.pow(3);
    match (case as usize).checked_sub(of_3) {
        None => small_of_3(case as usize),
        Some(code) => small_of_4(code),
    }
}

fn small_of_3(code: usize) -> Option<Case> {
    let (cut, mut code) = (code % 3, code / 3);
    let (mut rows, mut sent, mut ways) = (Vec::new(), Vec::new(), Vec::new());
    for (i, j) in gen::pairs(3) {
        let choice = code as i64 % 7;
        code /= 7;
        if choice < 6 {
            let (front, back) = (choice % 3, 2 - choice % 3);
            rows.push(Row::of(i, j, 1));
            sent.push(Sent { front, back });
            ways.push(if choice < 3 { Way::F } else { Way::B });
        }
    }
    let table = Table {
        n: 3,
        fibres: if code % 2 == 0 { 2 } else { 4 },
        family: FAMILIES[cut % 2],
        rows,
    };
    let plan = rules::figures(&table, foreign::cuts(&table)[cut], sent, ways);
    let trials = vec![(Call::Check, NONE), (Call::Parallel, NONE)];
    of_plan(&table, &plan, trials)
}

fn small_of_4(mut code: usize) -> Option<Case> {
    let (mut rows, mut sent) = (Vec::new(), Vec::new());
    for (i, j) in gen::pairs(4) {
        let choice = code as i64 % 4;
        code /= 4;
        if choice < 3 {
            let (front, back) = (choice, 2 - choice);
            rows.push(Row::of(i, j, 1));
            sent.push(Sent { front, back });
        }
    }
    if code > 0 {
        return None;
    }
    let table = Table {
        n: 4,
        fibres: 4,
        family: FAMILIES[sent.len() % 2],
        rows,
    };
    let ways = rules::rule_d(&table.rows, &sent);
    let cuts = foreign::cuts(&table).into_iter();
    let cut = cuts.max_by_key(|cut| cut.across).expect("a cut");
    let plan = rules::figures(&table, cut, sent, ways);
    of_plan(&table, &plan, vec![(Call::Parallel, NONE)])
}

/// Our sheet of as many rows as there may be on 3 offices, the last of which is
/// replaced by one or two rows of every kind. The first kind is our own last row.
pub fn about_most(_: &mut Rng, case: u64) -> Option<Case> {
    let ends = [
        "D|2|3|1|0|2|B\n",
        "D|2|3|1|0|1|B\n",
        "D|2|3|1|0|2|F\n",
        "D|2|3|10000|0|20000|B\n",
        "D|1|3|1|0|2|B\n",
        "D|3|3|1|0|2|B\n",
        "D|2|4|1|0|2|B\n",
        "D|2|3|1|0|2\n",
    ];
    let end = gen::sequence(&ends, 2, case)?.concat();
    let mut rows = vec![Row::of(1, 2, 1); 200];
    rows.resize(ROWS, Row::of(2, 3, 1));
    let table = Table {
        n: 3,
        fibres: 4,
        family: FAMILIES[case as usize % 2],
        rows,
    };
    let text = sheet_text(&table, &rules::plan(&table));
    let mut lines = gen::lines_of(&text);
    lines[ROWS] = tabbed(&end);
    Some(Case {
        offices: 3,
        text: lines.concat(),
        trials: vec![
            (Call::Check, NONE),
            (Call::Parallel, NONE),
            (Call::RewriteSheet, Lend::Need(1)),
        ],
    })
}

/// The square's sheet, of SONET and then of SDH, with each byte replaced by others, bytes
/// put in before it, it dropped, or the text cut short there.
pub fn every_byte(_: &mut Rng, case: u64) -> Option<Case> {
    let new = *b"RDCLZFBfbMm\t\n\r 0129\0\xff.-";
    let mut text = tabbed(SHEETS[0]);
    let each = 2 * new.len() + 2;
    let (mut at, what) = (case as usize / each, case as usize % each);
    if at >= text.len() {
        at -= text.len();
        text = tabbed(OF_SDH);
    }
    if at >= text.len() {
        return None;
    }
    match what {
        0 => text.truncate(at),
        1 => {
            text.remove(at);
        }
        _ if what % 2 == 0 => text[at] = new[what / 2 - 1],
        _ => text.insert(at, new[what / 2 - 1]),
    }
    let calls = [Call::Check, Call::RewriteSheet, Call::Check, Call::Parallel];
    let call = calls[case as usize % 4];
    let lend = if call.writes() { Lend::Need(3) } else { NONE };
    Some(Case {
        offices: 4,
        text,
        trials: vec![(call, lend)],
    })
}

/// Each field of the ring of five's sheet replaced by each boundary number and by
/// each odd spelling.
pub fn every_field(_: &mut Rng, case: u64) -> Option<Case> {
    let new = [gen::BOUNDARY.as_slice(), &gen::ODD].concat();
    let mut fields: Vec<&str> = SHEETS[4].split_inclusive(['|', '\n']).collect();
    let (at, what) = (case as usize / new.len(), case as usize % new.len());
    let end = fields.get(at)?.chars().last()?;
    let field = format!("{}{end}", new[what]);
    fields[at] = &field;
    of_text(&fields.concat(), vec![(Call::Check, NONE)])
}

/// Every length from 0 to 160, and around the need.
pub fn every_length(rng: &mut Rng, case: u64) -> Option<Case> {
    let call = Call::RewriteSheet;
    let lengths = (0..=160).map(|length| (call, Lend::Exactly(length)));
    let around = (-40..=17).map(|more| (call, Lend::Need(more)));
    let trials = lengths.chain(around).collect();
    let table = match case {
        0..=4 => return of_text(SHEETS[case as usize], trials),
        5 => return of_text(SHEETS[8], trials),
        6 => return of_text(SHEETS[9], trials),
        7 => gen::sparse(rng, 16, 12),
        8 => gen::sparse(rng, 24, 30),
        9 => gen::sparse(rng, 64, 20),
        10 => gen::full(rng, 20, Amounts::UpTo(9_999)),
        _ => return None,
    };
    of_plan(&table, &rules::plan(&table), trials)
}

/// A ring of 2 to 15 offices one time out of `whole`, else of 16 to 64, half of the
/// time of 32 at most.
fn offices(rng: &mut Rng, whole: usize) -> i64 {
    if rng.chance(1, whole) {
        return rng.between(2, 15);
    }
    let most = rng.pick(&[32, 64]);
    rng.between(16, most)
}

/// A table whose routing is quick: few rows, or a small ring.
fn table(rng: &mut Rng, whole: usize) -> Table {
    let n = offices(rng, whole);
    if n < 16 && rng.chance(1, 2) {
        return gen::any(rng, n);
    }
    let count = rng.between(0, 30) as usize;
    if rng.chance(1, 3) {
        return gen::circuits(rng, n, count);
    }
    gen::sparse(rng, n, count)
}

pub fn ours(rng: &mut Rng, _: u64) -> Option<Case> {
    let table = table(rng, 5);
    of_plan(&table, &rules::plan(&table), some_trials(rng))
}

/// All pairs of 20 offices or of 32, one time out of five with more circuits.
fn full_ring(rng: &mut Rng, case: u64) -> Table {
    if case % 5 == 4 {
        return gen::full_with_circuits(rng);
    }
    let n = if case % 4 == 3 { 32 } else { 20 };
    let amounts = gen::any_amounts(rng);
    gen::full(rng, n, amounts)
}

/// Sheets of large rings with as many rows as there may be: rows across one cut, each
/// halved, and rows of near offices, ours and another tool's; true, and with a figure
/// off by one.
pub fn full_larger(rng: &mut Rng, case: u64) -> Option<Case> {
    let n = *[40, 48, 56, 64].get(case as usize / 6)?;
    let (mut table, mut plan) = match case % 3 {
        0 => foreign::all_across(rng, n, ROWS),
        kind => {
            let table = gen::near(rng, n, Amounts::UpTo(9_999));
            let plan = if kind == 1 {
                rules::plan(&table)
            } else {
                foreign::plan(rng, &table)
            };
            (table, plan)
        }
    };
    if case % 6 >= 3 {
        foreign::off_by_one(rng, &mut table, &mut plan);
    }
    of_plan(&table, &plan, all_trials())
}

pub fn ours_full(rng: &mut Rng, case: u64) -> Option<Case> {
    let table = full_ring(rng, case);
    of_plan(&table, &rules::plan(&table), all_trials())
}

pub fn foreign_small(rng: &mut Rng, _: u64) -> Option<Case> {
    let table = table(rng, 1);
    of_plan(&table, &foreign::plan(rng, &table), some_trials(rng))
}

pub fn foreign_large(rng: &mut Rng, _: u64) -> Option<Case> {
    let table = table(rng, 1_000);
    of_plan(&table, &foreign::plan(rng, &table), some_trials(rng))
}

pub fn foreign_full(rng: &mut Rng, case: u64) -> Option<Case> {
    let table = full_ring(rng, case);
    of_plan(&table, &foreign::plan(rng, &table), all_trials())
}

pub fn crossing(rng: &mut Rng, _: u64) -> Option<Case> {
    let n = offices(rng, 4);
    let (table, plan) = foreign::crossing(rng, n);
    of_plan(&table, &plan, some_trials(rng))
}

pub fn all_across(rng: &mut Rng, _: u64) -> Option<Case> {
    let n = offices(rng, 4);
    let count = if rng.chance(1, 2) { rng.below(30) } else { 0 };
    let (table, plan) = foreign::all_across(rng, n, count);
    of_plan(&table, &plan, some_trials(rng))
}

/// 1,024 rows: all halved, or sent by us or by another tool.
pub fn most_rows(rng: &mut Rng, case: u64) -> Option<Case> {
    let n = rng.pick(&[2, 3, 4, 7, 12, 20, 64]);
    if case % 2 == 0 {
        let (table, plan) = foreign::all_across(rng, n, ROWS);
        return of_plan(&table, &plan, some_trials(rng));
    }
    let table = gen::circuits(rng, n, ROWS);
    let plan = if case % 4 == 1 {
        rules::plan(&table)
    } else {
        foreign::plan(rng, &table)
    };
    of_plan(&table, &plan, some_trials(rng))
}

/// 1,025 rows and more, halved; three times out of four a row has another reason,
/// or several.
pub fn too_many_rows(rng: &mut Rng, case: u64) -> Option<Case> {
    let (n, more) = (rng.between(2, 64), rng.pick(&[1, 1, 2, 4, 60]));
    let (mut table, mut plan) = foreign::all_across(rng, n, ROWS + more);
    match case % 4 {
        0 => gen::spoil_row(rng, &mut table.rows[ROWS]),
        1 => foreign::row_off(rng, ROWS - 2, &mut table, &mut plan),
        _ => (),
    }
    let mut made = of_plan(&table, &plan, some_trials(rng))?;
    if case % 4 == 2 {
        gen::damage_any(rng, &mut made.text, gen::damage_sheet_row);
    }
    Some(made)
}

/// A sheet of ours, of another tool, or of rows that all cross.
fn sheet(rng: &mut Rng) -> (Table, Plan) {
    let table = table(rng, 5);
    match rng.below(4) {
        0 | 1 => {
            let plan = rules::plan(&table);
            (table, plan)
        }
        2 => {
            let plan = foreign::plan(rng, &table);
            (table, plan)
        }
        _ => foreign::crossing(rng, table.n),
    }
}

pub fn off_by_one(rng: &mut Rng, _: u64) -> Option<Case> {
    let (mut table, mut plan) = sheet(rng);
    foreign::off_by_one(rng, &mut table, &mut plan);
    of_plan(&table, &plan, some_trials(rng))
}

/// Two figures off, mostly on two lines: the first line wins.
pub fn two_off(rng: &mut Rng, _: u64) -> Option<Case> {
    let (mut table, mut plan) = sheet(rng);
    foreign::off_by_one(rng, &mut table, &mut plan);
    foreign::off_by_one(rng, &mut table, &mut plan);
    of_plan(&table, &plan, some_trials(rng))
}

/// A damaged text: the damage is done `times` times, one time out of three to
/// a sheet that has a false figure already.
fn damaged(rng: &mut Rng, times: u64, damage: fn(&mut Rng, &mut Vec<u8>)) -> Option<Case> {
    let (mut table, mut plan) = sheet(rng);
    if rng.chance(1, 3) {
        foreign::off_by_one(rng, &mut table, &mut plan);
    }
    let mut case = of_plan(&table, &plan, some_trials(rng))?;
    for _ in 0..times {
        damage(rng, &mut case.text);
    }
    Some(case)
}

pub fn damaged_bytes(rng: &mut Rng, _: u64) -> Option<Case> {
    damaged(rng, 1, gen::damage_bytes)
}

pub fn damaged_lines(rng: &mut Rng, _: u64) -> Option<Case> {
    damaged(rng, 1, gen::damage_lines)
}

pub fn damaged_fields(rng: &mut Rng, _: u64) -> Option<Case> {
    damaged(rng, 1, gen::damage_fields)
}

pub fn damaged_rows(rng: &mut Rng, _: u64) -> Option<Case> {
    damaged(rng, 1, gen::damage_sheet_row)
}

pub fn damaged_often(rng: &mut Rng, _: u64) -> Option<Case> {
    let times = rng.between(2, 4) as u64;
    damaged(rng, times, |rng, text| {
        gen::damage_any(rng, text, gen::damage_sheet_row)
    })
}

/// Texts of 32,768 bytes, one more, and lengths about as large.
pub fn padded(rng: &mut Rng, _: u64) -> Option<Case> {
    let mut case = damaged(rng, 0, gen::damage_bytes)?;
    let lengths = [32_767, 32_768, 32_768, 32_769, 32_769, 65_537];
    let length = rng.pick(&lengths);
    gen::pad(rng, &mut case.text, length);
    Some(case)
}

/// Tables and noise, given to the calls of a sheet.
pub fn no_sheets(rng: &mut Rng, case: u64) -> Option<Case> {
    let table = table(rng, 5);
    let text = if case % 4 == 0 {
        gen::noise(rng)
    } else {
        table_text(&table)
    };
    Some(Case {
        offices: table.n,
        text,
        trials: some_trials(rng),
    })
}
