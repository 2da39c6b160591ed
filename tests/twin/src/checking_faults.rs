//! Faults of checking a sheet, of the parallel question and of rewriting a
//! sheet: what mutant.rs lists. Each is a question that is asked wrongly, or a
//! reader that reads another text.

use crate::check::{self, Finding, Questions, Sheet, QUESTIONS};
use crate::family::Family;
use crate::limits::TEXT;
use crate::row_faults::{first_rows, too_many_lines, MANY_NEVER};
use crate::rules::{self, Cut};
use crate::table::{refuse, Refusal, Row, Table};
use crate::twin::{Pair, Reply, Said};

pub fn yes(_: &Sheet, _: usize) -> bool {
    true
}

// Faults of checking: the text.

/// A sheet that nothing is known of.
fn blank(text: &[u8]) -> Sheet {
    let accept = Questions {
        rows: QUESTIONS.rows,
        sum: yes,
        way: yes,
        cut: yes,
        count: yes,
        link: yes,
        size: yes,
        best: yes,
        bound: yes,
    };
    let no_rows = b"R\t2\t4\nC\t1\t2\t0\nL\t1\t0\t0\nL\t2\t0\t0\nZ\t0\t3\n";
    let read = check::read_asking(text, &accept).or(check::read(no_rows));
    read.expect("a sheet with no rows")
}

pub fn yes_to_all(text: &[u8]) -> Result<Sheet, Refusal> {
    Ok(blank(text))
}

pub fn no_to_all(text: &[u8]) -> Result<Sheet, Refusal> {
    let (reason, line, byte) = (2, 1, 1);
    let refusal = check::read(text).err();
    Err(refusal.unwrap_or(Refusal { reason, line, byte }))
}

pub fn only_ours(text: &[u8]) -> Result<Sheet, Refusal> {
    let sheet = check::read(text)?;
    if sheet.plan != rules::plan(&sheet.table) {
        return refuse(13, 0, 0);
    }
    Ok(sheet)
}

/// No figure of a line is asked about.
const NO_LINE_ASKED: Questions = Questions {
    sum: yes,
    way: yes,
    cut: yes,
    link: yes,
    size: yes,
    ..QUESTIONS
};

/// 13 or 14 of a well-formed sheet, whatever its lines say, is given first.
pub fn peaks_first(text: &[u8]) -> Result<Sheet, Refusal> {
    match check::read_asking(text, &NO_LINE_ASKED) {
        Err(refusal) if refusal.line == 0 => Err(refusal),
        _ => check::read(text),
    }
}

pub fn bound_first(text: &[u8]) -> Result<Sheet, Refusal> {
    let best = yes;
    let bound = Questions { best, ..QUESTIONS };
    check::read_asking(text, &bound)?;
    check::read(text)
}

/// The text up to its first Z line.
pub fn after_z(text: &[u8]) -> Result<Sheet, Refusal> {
    let mut kept = Vec::new();
    for line in text.split_inclusive(|byte| *byte == b'\n') {
        kept.extend_from_slice(line);
        if line.starts_with(b"Z\t") && text.len() <= TEXT {
            return check::read(&kept);
        }
    }
    check::read(text)
}

pub fn lower_case(text: &[u8]) -> Result<Sheet, Refusal> {
    let mut upper = text.to_vec();
    for byte in &mut upper {
        if b"fb".contains(byte) {
            byte.make_ascii_uppercase();
        }
    }
    check::read(&upper)
}

/// 2 is given wherever a sheet of whose rows nothing else is asked would get it.
pub fn sheet_shape_first(text: &[u8]) -> Result<Sheet, Refusal> {
    match check::read_values(text, &[]) {
        Err(refusal) if refusal.reason == 2 => Err(refusal),
        _ => check::read(text),
    }
}

pub fn missing_is_last(text: &[u8]) -> Result<Sheet, Refusal> {
    let lines = text.split_inclusive(|byte| *byte == b'\n').count() as u32;
    check::read(text).map_err(|refusal| {
        let line = refusal.line.min(lines);
        Refusal { line, ..refusal }
    })
}

pub fn sheet_many_first(text: &[u8]) -> Result<Sheet, Refusal> {
    check::read(text).map_err(|refusal| too_many_lines(text, refusal))
}

/// The reasons of a row by rising number: 16 comes last.
pub fn many_after_9(text: &[u8]) -> Result<Sheet, Refusal> {
    let rows = &MANY_NEVER;
    let never = Questions { rows, ..QUESTIONS };
    check::read(text).map_err(|refusal| match check::read_asking(text, &never) {
        Err(other) if refusal.reason == 16 && other.line == refusal.line => other,
        _ => refusal,
    })
}

pub fn sheet_without_many(text: &[u8]) -> Result<Sheet, Refusal> {
    match check::read(text) {
        Err(refusal) if refusal.reason == 16 => check::read(&first_rows(text)),
        read => read,
    }
}

/// Each line is judged as it is read, so that a false figure wins over a fault of
/// form on a later line.
pub fn judged_early(text: &[u8]) -> Result<Sheet, Refusal> {
    let (seen, Err(refusal)) = check::read_so_far(text, QUESTIONS.rows) else {
        return check::read(text);
    };
    match first_false(&seen, refusal.line) {
        Some(finding) => Err(check::on_line(&seen, finding)),
        None => Err(refusal),
    }
}

/// The first false figure of the lines above one, by what these lines say.
fn first_false(seen: &Sheet, line: u32) -> Option<Finding> {
    let cut_line = seen.table.rows.len() as u32 + 2;
    let last_line = cut_line + seen.table.n as u32 + 1;
    let cut = if cut_line < line { QUESTIONS.cut } else { yes };
    let size = if last_line < line {
        QUESTIONS.size
    } else {
        yes
    };
    let asked = Questions {
        rows: &[],
        cut,
        count: yes,
        size,
        best: yes,
        bound: yes,
        ..QUESTIONS
    };
    // Above line 2 nothing but the ring is judged.
    (line >= 2).then(|| check::judge_asking(seen, &asked).err())?
}

/// What is found of a row is given the row's place for a line.
pub fn place_for_line(text: &[u8]) -> Result<Sheet, Refusal> {
    check::read(text).map_err(|refusal| match refusal.reason {
        8 | 9 => Refusal {
            line: refusal.line - 1,
            ..refusal
        },
        _ => refusal,
    })
}

// Faults of the reply where no buffer is lent.

pub fn yes_with_length(text: &[u8], said: Said) -> Said {
    match said {
        Said::Reply(reply) if reply.reason == 0 => {
            let length = text.len();
            Said::Reply(Reply { length, ..reply })
        }
        _ => said,
    }
}

pub fn refused_with_pair(text: &[u8], said: Said) -> Said {
    let found = check::first_parallel(&blank(text));
    match (said, found) {
        (Said::Pair(pair), Some((first, second))) => Said::Pair(Pair {
            first,
            second,
            ..pair
        }),
        _ => said,
    }
}

// Faults of checking: rows.

pub fn sum_most(sheet: &Sheet, at: usize) -> bool {
    let (row, sent) = check::row_at(sheet, at);
    sent.front + sent.back <= 2 * row.amount
}

pub fn sum_short(sheet: &Sheet, at: usize) -> bool {
    let (row, sent) = check::row_at(sheet, at);
    (sent.front as u16).wrapping_add(sent.back as u16) == 2 * row.amount as u16
}

pub fn way_of_zero(sheet: &Sheet, at: usize) -> bool {
    check::row_at(sheet, at).0.amount == 0 || (QUESTIONS.way)(sheet, at)
}

/// Rule D asked of the rows so far, with the D that they have.
pub fn way_of_split(sheet: &Sheet, at: usize) -> bool {
    let ways = rules::rule_d(&sheet.table.rows[..=at], &sheet.plan.sent[..=at]);
    sheet.plan.ways[at] == ways[at]
}

// Faults of checking: the cut.

pub fn cut_on_ring(sheet: &Sheet, _: usize) -> bool {
    let Cut { g, h, .. } = sheet.plan.cut;
    1 <= g && g < h && h <= sheet.table.n
}

pub fn cut_most(sheet: &Sheet, _: usize) -> bool {
    let Cut { g, h, across } = sheet.plan.cut;
    cut_on_ring(sheet, 0) && across <= rules::across(&sheet.table.rows, g, h)
}

pub fn cut_equal(sheet: &Sheet, _: usize) -> bool {
    let Cut { g, h, across } = sheet.plan.cut;
    let equal = 1 <= g && g == h && h <= sheet.table.n && across == 0;
    equal || (QUESTIONS.cut)(sheet, 0)
}

pub fn cut_either(sheet: &Sheet, _: usize) -> bool {
    let Cut { g, h, across } = sheet.plan.cut;
    let mut turned = sheet.clone();
    turned.plan.cut = Cut { g: h, h: g, across };
    (QUESTIONS.cut)(sheet, 0) || (QUESTIONS.cut)(&turned, 0)
}

pub fn cut_ours(sheet: &Sheet, _: usize) -> bool {
    sheet.plan.cut == rules::rule_a(&sheet.table)
}

// Faults of checking: links.

/// A link's true loads, and whether the sheet has its number right.
fn loads(sheet: &Sheet, at: usize) -> (i64, i64, bool) {
    let (rows, plan) = (&sheet.table.rows, &sheet.plan);
    let due = at as i64 + 1;
    let split = rules::split_load(rows, &plan.sent, due);
    let unsplit = rules::unsplit_load(rows, &plan.ways, due);
    (split, unsplit, sheet.links[at] == due)
}

pub fn link_number(sheet: &Sheet, at: usize) -> bool {
    loads(sheet, at).2
}

pub fn link_unsplit(sheet: &Sheet, at: usize) -> bool {
    let (_, unsplit, number) = loads(sheet, at);
    number && sheet.plan.unsplit[at] == unsplit
}

pub fn link_split(sheet: &Sheet, at: usize) -> bool {
    let (split, _, number) = loads(sheet, at);
    number && sheet.plan.split[at] == split
}

pub fn link_loads(sheet: &Sheet, at: usize) -> bool {
    let (split, unsplit, _) = loads(sheet, at);
    sheet.plan.split[at] == split && sheet.plan.unsplit[at] == unsplit
}

pub fn link_but_last(sheet: &Sheet, at: usize) -> bool {
    at as i64 + 1 == sheet.table.n || (QUESTIONS.link)(sheet, at)
}

// Faults of checking: peaks, size and bound.

pub fn size_of_named(sheet: &Sheet, _: usize) -> bool {
    sheet.plan.size == rules::line_size(&sheet.table, sheet.plan.peak)
}

pub fn peak_alone(sheet: &Sheet, _: usize) -> bool {
    sheet.plan.peak == rules::peak(&sheet.plan.unsplit)
}

pub fn size_enough(sheet: &Sheet, _: usize) -> bool {
    let enough = sheet.table.family.sizes().contains(&sheet.plan.size);
    let least = rules::least_size(&sheet.table, sheet.plan.peak);
    let larger = enough && sheet.plan.size >= least;
    peak_alone(sheet, 0) && (larger || (QUESTIONS.size)(sheet, 0))
}

pub fn size_largest(sheet: &Sheet, _: usize) -> bool {
    let least = rules::least_size(&sheet.table, sheet.plan.peak);
    let largest = sheet.table.family.sizes()[4];
    peak_alone(sheet, 0) && sheet.plan.size == rules::size(sheet.table.family, least.min(largest))
}

pub fn best_ours(sheet: &Sheet, _: usize) -> bool {
    rules::peak(&sheet.plan.split) == rules::rule_a(&sheet.table).across
}

/// What the sheet says of a cut is not read at all.
pub const OUR_CUT: Questions = Questions {
    cut: yes,
    best: best_ours,
    ..QUESTIONS
};

pub fn best_most(sheet: &Sheet, _: usize) -> bool {
    rules::peak(&sheet.plan.split) <= sheet.plan.cut.across
}

pub fn best_least(sheet: &Sheet, _: usize) -> bool {
    rules::peak(&sheet.plan.split) >= sheet.plan.cut.across
}

pub fn best_at_cut(sheet: &Sheet, _: usize) -> bool {
    let Cut { g, h, across } = sheet.plan.cut;
    let load = |link: i64| sheet.plan.split[link as usize - 1];
    load(g).max(load(h)) == across
}

/// The bound with another multiple of D, another D, and a number put to it.
fn bound_with(sheet: &Sheet, times: i64, largest: i64, more: i64) -> bool {
    2 * sheet.plan.peak <= rules::peak(&sheet.plan.split) + times * largest + more
}

fn largest(sheet: &Sheet) -> i64 {
    rules::largest_split(&sheet.table.rows, &sheet.plan.sent)
}

pub fn bound_two(sheet: &Sheet, _: usize) -> bool {
    bound_with(sheet, 2, largest(sheet), 0)
}

pub fn bound_four(sheet: &Sheet, _: usize) -> bool {
    bound_with(sheet, 4, largest(sheet), 0)
}

pub fn bound_strict(sheet: &Sheet, _: usize) -> bool {
    bound_with(sheet, 3, largest(sheet), -1)
}

pub fn bound_loose(sheet: &Sheet, _: usize) -> bool {
    bound_with(sheet, 3, largest(sheet), 1)
}

pub fn bound_all(sheet: &Sheet, _: usize) -> bool {
    let amounts = sheet.table.rows.iter().map(|row| row.amount);
    bound_with(sheet, 3, amounts.max().unwrap_or(0), 0)
}

pub fn bound_half(sheet: &Sheet, _: usize) -> bool {
    let split = sheet.plan.sent.iter().filter(|sent| rules::is_split(sent));
    let half = split.map(|sent| sent.front.max(sent.back)).max();
    bound_with(sheet, 3, half.unwrap_or(0), 0)
}

// Faults of the parallel question.

/// All pairs in rule C's order that are kept, as places from 1.
fn pairs(sheet: &Sheet, kept: impl Fn(usize, usize) -> bool) -> Vec<(usize, usize)> {
    let rows = sheet.table.rows.len();
    let mut pairs = Vec::new();
    for first in 0..rows {
        for second in first + 1..rows {
            if kept(first, second) {
                pairs.push((first + 1, second + 1));
            }
        }
    }
    pairs
}

fn both_split(sheet: &Sheet, first: usize, second: usize) -> bool {
    let sent = &sheet.plan.sent;
    rules::is_split(&sent[first]) && rules::is_split(&sent[second])
}

pub fn same_nodes(one: &Row, two: &Row) -> bool {
    (one.first, one.second) == (two.first, two.second)
}

fn are_parallel(sheet: &Sheet, first: usize, second: usize) -> bool {
    !rules::cross(&sheet.table.rows[first], &sheet.table.rows[second])
}

fn all_pairs(sheet: &Sheet) -> Vec<(usize, usize)> {
    pairs(sheet, |first, second| {
        both_split(sheet, first, second) && are_parallel(sheet, first, second)
    })
}

/// The first pair of those that another test of two rows keeps.
fn pair_where(sheet: &Sheet, kept: impl Fn(&Row, &Row) -> bool) -> Option<(usize, usize)> {
    let rows = &sheet.table.rows;
    let mut pairs = all_pairs(sheet).into_iter();
    pairs.find(|(first, second)| kept(&rows[first - 1], &rows[second - 1]))
}

pub fn pair_last(sheet: &Sheet) -> Option<(usize, usize)> {
    all_pairs(sheet).last().copied()
}

pub fn pair_unsplit(sheet: &Sheet) -> Option<(usize, usize)> {
    let pairs = pairs(sheet, |first, second| are_parallel(sheet, first, second));
    pairs.first().copied()
}

pub fn pair_from_0(sheet: &Sheet) -> Option<(usize, usize)> {
    check::first_parallel(sheet).map(|(first, second)| (first - 1, second - 1))
}

pub fn pair_among_split(sheet: &Sheet) -> Option<(usize, usize)> {
    let place = |row: usize| {
        let sent = sheet.plan.sent[..row].iter();
        sent.filter(|sent| rules::is_split(sent)).count()
    };
    check::first_parallel(sheet).map(|(first, second)| (place(first), place(second)))
}

pub fn pair_by_second(sheet: &Sheet) -> Option<(usize, usize)> {
    let pairs = all_pairs(sheet).into_iter();
    pairs.min_by_key(|(first, second)| (*second, *first))
}

pub fn pair_swapped(sheet: &Sheet) -> Option<(usize, usize)> {
    check::first_parallel(sheet).map(|(first, second)| (second, first))
}

pub fn pair_never(_: &Sheet) -> Option<(usize, usize)> {
    None
}

pub fn pair_shared(sheet: &Sheet) -> Option<(usize, usize)> {
    pair_where(sheet, |one, two| {
        one.first != two.first && one.second != two.second && one.second != two.first
    })
}

pub fn pair_other_nodes(sheet: &Sheet) -> Option<(usize, usize)> {
    pair_where(sheet, |one, two| !same_nodes(one, two))
}

pub fn pair_disjoint(sheet: &Sheet) -> Option<(usize, usize)> {
    pair_where(sheet, rules::fronts_disjoint)
}

pub fn pair_inside(sheet: &Sheet) -> Option<(usize, usize)> {
    pair_where(sheet, |one, two| !rules::fronts_disjoint(one, two))
}

pub fn pair_next(sheet: &Sheet) -> Option<(usize, usize)> {
    let mut pairs = all_pairs(sheet).into_iter();
    pairs.find(|(first, second)| first + 1 == *second)
}

// Faults of rewriting a sheet.

pub fn with_our_cut(mut sheet: Sheet) -> Sheet {
    sheet.plan.cut = rules::rule_a(&sheet.table);
    sheet
}

pub fn with_our_ways(mut sheet: Sheet) -> Sheet {
    sheet.plan.ways = rules::rule_d(&sheet.table.rows, &sheet.plan.sent);
    sheet
}

pub fn with_our_plan(mut sheet: Sheet) -> Sheet {
    sheet.plan = rules::plan(&sheet.table);
    sheet
}

/// The sizes of one family, whichever the ring is of.
fn size_of(sheet: &Sheet, family: Family) -> bool {
    let table = Table {
        family,
        ..sheet.table.clone()
    };
    peak_alone(sheet, 0) && sheet.plan.size == rules::line_size(&table, sheet.plan.peak)
}

pub fn size_sonet(sheet: &Sheet, _: usize) -> bool {
    size_of(sheet, Family::Sonet)
}

pub fn size_sdh(sheet: &Sheet, _: usize) -> bool {
    size_of(sheet, Family::Sdh)
}

/// A size of either family.
pub fn size_either(sheet: &Sheet, _: usize) -> bool {
    size_sonet(sheet, 0) || size_sdh(sheet, 0)
}

/// The halving for two fibres forgotten by SDH.
pub fn size_sdh_once(sheet: &Sheet, _: usize) -> bool {
    match sheet.table.family {
        Family::Sonet => (QUESTIONS.size)(sheet, 0),
        Family::Sdh => size_once(sheet, 0),
    }
}

// Faults of the size on two fibres and on four.

pub fn size_once(sheet: &Sheet, _: usize) -> bool {
    peak_alone(sheet, 0) && sheet.plan.size == rules::size(sheet.table.family, sheet.plan.peak)
}

pub fn size_twice(sheet: &Sheet, _: usize) -> bool {
    peak_alone(sheet, 0) && sheet.plan.size == rules::size(sheet.table.family, 2 * sheet.plan.peak)
}
