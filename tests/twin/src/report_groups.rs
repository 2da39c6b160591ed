//! The groups of texts of many plans: sheets by every routing call and as other tools
//! fill them, one behind the other, whole and damaged; ratios that are alike, or alike
//! when they are rounded; texts about as long as they may be; and texts that hold no
//! sheet.

use crate::bars::tabbed;
use crate::compare::{Case, Lend};
use crate::family::{Family, FAMILIES};
use crate::foreign;
use crate::gen;
use crate::groups::{Make, ENOUGH, SHORT};
use crate::limits::{REPORT_TEXT, ROWS, TEXT};
use crate::matrices;
use crate::part::{group, Group};
use crate::report;
use crate::report_selfcheck::BY_HAND;
use crate::rng::Rng;
use crate::rules;
use crate::sheet::{sheet_text, table_text};
use crate::sheets::{self, SHEETS};
use crate::table::{Row, Table};
use crate::twin::{self, Call};

pub const REPORT_GROUPS: [Group<Make>; 26] = [
    group("report: by hand", 0, by_hand),
    group("report: the stated sheets", 0, stated),
    group("report: every buffer length", 0, every_length),
    group("report: every byte of three sheets", 0, every_byte),
    group("report: about the limit", 0, about_the_limit),
    group("report: pieces about 32,768 bytes", 0, long_pieces),
    group("report: as many pieces as there may be", 0, most_pieces),
    group("report: full sheets", 0, full),
    group("report: two ratios", 0, two_ratios),
    group("report: sheets of all routing calls", 200, routed),
    group("report: sheets of 16 offices and more", 200, large),
    group("report: sheets of other tools", 200, foreign_sheets),
    group("report: both families", 200, both_families),
    group("report: ratios that are alike", 200, alike),
    group("report: ratios that are nearly alike", 100, nearly_alike),
    group("report: large loads", 60, large_loads),
    group("report: across numbers of 0", 100, none_across),
    group("report: something before the first R", 150, before_first),
    group("report: no line with R", 60, no_ring_line),
    group("report: one sheet damaged", 250, one_damaged),
    group("report: damaged anywhere", 250, damaged),
    group("report: R elsewhere", 200, other_letters),
    group("report: CR and LF", 150, line_ends),
    group("report: pieces put in and left out", 150, pieces_moved),
    group("report: padded texts", 40, padded),
    group("report: noise", 60, noise),
];

fn trials(lends: &[Lend]) -> Vec<(Call, Lend)> {
    lends.iter().map(|lend| (Call::Report, *lend)).collect()
}

fn of_bytes(offices: i64, text: Vec<u8>, lends: &[Lend]) -> Option<Case> {
    let trials = trials(lends);
    Some(Case {
        offices,
        text,
        trials,
    })
}

/// One buffer that is long enough, and one that mostly is not.
fn both(rng: &mut Rng, offices: i64, text: Vec<u8>) -> Option<Case> {
    let lends = [rng.pick(&ENOUGH), rng.pick(&SHORT)];
    of_bytes(offices, text, &lends)
}

/// The sheet of one row of that amount on a ring of two offices, which is halved: the
/// across number is the amount, and so is the unsplit peak.
pub fn two_offices(amount: i64) -> Vec<u8> {
    two_offices_of(Family::Sonet, amount)
}

fn two_offices_of(family: Family, amount: i64) -> Vec<u8> {
    let table = Table {
        n: 2,
        fibres: 4,
        family,
        rows: vec![Row::of(1, 2, amount)],
    };
    sheet_text(&table, &rules::plan(&table))
}

/// The smallest sheet of 36 bytes, whose across number is 0.
pub const SMALLEST: &str = "R|2|4\nC|1|2|0\nL|1|0|0\nL|2|0|0\nZ|0|3\n";

fn by_hand(rng: &mut Rng, case: u64) -> Option<Case> {
    let (text, _) = BY_HAND.get(case as usize)?;
    both(rng, 2, tabbed(text))
}

/// One behind the other, from each of them on.
fn stated(rng: &mut Rng, case: u64) -> Option<Case> {
    let from = case as usize;
    let sheets = SHEETS.get(from..)?;
    let text: Vec<u8> = sheets.iter().flat_map(|text| tabbed(text)).collect();
    (!text.is_empty()).then(|| both(rng, 8, text))?
}

fn every_length(rng: &mut Rng, case: u64) -> Option<Case> {
    let lends: Vec<Lend> = (0..=60).map(Lend::Exactly).collect();
    let text = match case {
        0 => Vec::new(),
        1 => b"R\n".to_vec(),
        2 => tabbed(SMALLEST).repeat(11),
        3 => routed(rng, 0)?.text,
        4 => large(rng, 0)?.text,
        5 => tabbed(SMALLEST).repeat(REPORT_TEXT / SMALLEST.len()),
        6 => vec![b'R'; REPORT_TEXT + 1],
        _ => return None,
    };
    of_bytes(8, text, &lends)
}

/// Each byte of a text of three sheets left out, and made R, CR, LF or a blank.
fn every_byte(_: &mut Rng, case: u64) -> Option<Case> {
    let sheets = [tabbed(SMALLEST), two_offices(5), two_offices(3)];
    let mut text = sheets.concat();
    let at = case as usize / 5;
    let other = *[None, Some(b'R'), Some(b'\r'), Some(b'\n'), Some(b' ')].get(case as usize % 5)?;
    if at >= text.len() {
        return None;
    }
    text.splice(at..=at, other);
    of_bytes(2, text, &[Lend::Need(0)])
}

/// So many times over as there is room for, and then some of it.
fn filled_up(unit: &[u8], length: usize) -> Vec<u8> {
    unit.iter().copied().cycle().take(length).collect()
}

/// What texts about the limit are made of.
const UNITS: [&str; 8] = [
    SMALLEST,
    "R|2|4\nD|1|2|5|5|5|F\nC|1|2|5\nL|1|5|5\nL|2|5|0\nZ|5|12\n",
    "R\n",
    "R",
    "\n",
    "x",
    "\rR",
    "R|64|4\nD|1|64|9999\n",
];

/// Lengths on either side of the limit, and such as would pass if high bits were lost.
fn about_the_limit(rng: &mut Rng, case: u64) -> Option<Case> {
    let lengths = [
        REPORT_TEXT - 1,
        REPORT_TEXT,
        REPORT_TEXT + 1,
        REPORT_TEXT + 2,
        2 * REPORT_TEXT,
        2 * REPORT_TEXT + 36,
    ];
    let unit = tabbed(UNITS.get(case as usize / lengths.len())?);
    let text = filled_up(&unit, lengths[case as usize % lengths.len()]);
    let lends = [Lend::Exactly(0), Lend::Need(-1), rng.pick(&ENOUGH)];
    of_bytes(2, text, &lends)
}

/// A sheet with so many bytes more put at its end, before it or in its middle.
fn long_pieces(rng: &mut Rng, case: u64) -> Option<Case> {
    let lengths = [TEXT - 1, TEXT, TEXT + 1, TEXT + 2, 60_000];
    let length = *lengths.get(case as usize / 4)?;
    let mut long = two_offices(7);
    let more = length - long.len();
    let (at, filler) = match case % 4 {
        0 => (long.len(), b'\n'),
        1 => (0, b'\n'),
        2 => (long.len() - 1, b'0'),
        _ => (6, b'D'),
    };
    long.splice(at..at, vec![filler; more]);
    let around = [two_offices(3), tabbed(SMALLEST)];
    both(rng, 2, [&around[0][..], &long, &around[1]].concat())
}

/// Pieces as short as they may be, up to the limit.
fn most_pieces(rng: &mut Rng, case: u64) -> Option<Case> {
    let unit: &[u8] = match case {
        0 => b"R\n",
        1 => b"R\r\n",
        2 => b"R|2|4\n",
        3 => {
            return both(
                rng,
                2,
                [b"x\n", &b"R\n".repeat(REPORT_TEXT / 2 - 1)[..]].concat(),
            )
        }
        4 => return smallest(rng, 0),
        5 => return smallest(rng, 1),
        6 => return smallest(rng, 9),
        _ => return None,
    };
    both(rng, 2, unit.repeat(REPORT_TEXT / unit.len()))
}

/// As many of the smallest sheets as there is room for, of amount 0 or of one to some
/// amount, so that one enters behind the other.
fn smallest(rng: &mut Rng, most: i64) -> Option<Case> {
    let mut text = Vec::new();
    loop {
        let sheet = match rng.between(0, most) {
            0 => tabbed(SMALLEST),
            amount => two_offices(amount),
        };
        if text.len() + sheet.len() > REPORT_TEXT {
            return both(rng, 2, text);
        }
        text.extend(sheet);
    }
}

/// The longest sheets, two of which have room, and a third that has not.
fn full(rng: &mut Rng, case: u64) -> Option<Case> {
    let n = *[20, 32, 64, 64].get(case as usize)?;
    let sheets: Vec<u8> = (0..if case == 3 { 3 } else { 2 })
        .flat_map(|_| {
            let (table, plan) = foreign::all_across(rng, n, ROWS.min(n as usize * 8));
            sheet_text(&table, &plan)
        })
        .collect();
    both(rng, n, sheets)
}

/// Two sheets, of which either may be the worse, or both are alike.
fn two_ratios(rng: &mut Rng, case: u64) -> Option<Case> {
    let known = [
        two_offices(1),
        two_offices(6),
        tabbed(SHEETS[0]),
        tabbed(SHEETS[3]),
        tabbed(SHEETS[4]),
        tabbed(SHEETS[5]),
        tabbed(SMALLEST),
        tabbed(SHEETS[8]),
    ];
    let (one, other) = (case as usize / known.len(), case as usize % known.len());
    let text = [&known.get(one)?[..], &known[other]].concat();
    both(rng, 8, text)
}

/// A table that is soon routed.
fn table(rng: &mut Rng, least: i64, most: i64) -> Table {
    let n = rng.between(least, most);
    let count = rng.between(0, 12) as usize;
    match rng.below(3) {
        0 => gen::circuits(rng, n, count),
        1 => gen::sparse(rng, n, count),
        _ => {
            let mut table = gen::shaped(rng, n);
            table.rows.truncate(count);
            table
        }
    }
}

const ROUTING: [Call; 4] = [
    Call::Route,
    Call::RouteBest,
    Call::RouteLowered,
    Call::RouteLoweredBest,
];

/// The sheet of a table by one of the four calls; of few rows none is refused.
fn route(rng: &mut Rng, table: &Table) -> Vec<u8> {
    let call = rng.pick(&ROUTING);
    let answer = twin::answer(call, &table_text(table));
    answer.map_or(Vec::new(), |granted| granted.text)
}

/// So many texts, one behind the other, which are made one by one.
fn joined(rng: &mut Rng, most: i64, mut make: impl FnMut(&mut Rng) -> Vec<u8>) -> Vec<u8> {
    let count = rng.between(0, most);
    (0..count).flat_map(|_| make(rng)).collect()
}

fn routed(rng: &mut Rng, _: u64) -> Option<Case> {
    let text = joined(rng, 9, |rng| {
        let table = table(rng, 2, 12);
        route(rng, &table)
    });
    both(rng, 12, text)
}

fn large(rng: &mut Rng, _: u64) -> Option<Case> {
    let text = joined(rng, 7, |rng| {
        let table = table(rng, 16, 64);
        route(rng, &table)
    });
    both(rng, 64, text)
}

/// A sheet as another tool fills it, one time out of four with a figure off by one.
fn of_another_tool(rng: &mut Rng) -> Vec<u8> {
    let n = rng.between(2, 24);
    let (mut table, mut plan) = match rng.below(3) {
        0 => foreign::crossing(rng, n),
        1 => foreign::all_across(rng, n, 5),
        _ => {
            let table = table(rng, 2, 24);
            let plan = foreign::plan(rng, &table);
            (table, plan)
        }
    };
    if rng.chance(1, 4) {
        foreign::off_by_one(rng, &mut table, &mut plan);
    }
    sheet_text(&table, &plan)
}

fn foreign_sheets(rng: &mut Rng, _: u64) -> Option<Case> {
    let text = joined(rng, 8, of_another_tool);
    both(rng, 24, text)
}

/// Sheets of either family by turns and by chance, of small amounts, so that the worst of
/// one may be that of the other; some with M put in or left out.
fn both_families(rng: &mut Rng, case: u64) -> Option<Case> {
    let mut text = joined(rng, 14, |rng| {
        let family = rng.pick(&FAMILIES);
        if rng.chance(1, 3) {
            return two_offices_of(family, rng.between(0, 300));
        }
        let table = table(rng, 2, 20);
        route(rng, &Table { family, ..table })
    });
    if case % 4 == 0 {
        let mut lines = gen::lines_of(&text);
        for line in lines.iter_mut().filter(|line| line.starts_with(b"R")) {
            match (rng.below(4), line.ends_with(b"\tM\n")) {
                (0, true) => drop(line.splice(line.len() - 3..line.len() - 1, [])),
                (0, false) => drop(line.splice(line.len() - 1.., *b"\tM\n")),
                (1, true) => {
                    let at = line.len() - 2;
                    line[at] = rng.pick(b"mS\t4");
                }
                _ => (),
            }
        }
        text = lines.concat();
    }
    both(rng, 20, text)
}

/// Small amounts on small rings, so that many ratios are alike, with other numbers.
fn alike(rng: &mut Rng, _: u64) -> Option<Case> {
    let most = rng.pick(&[1, 2, 3, 9]);
    let text = joined(rng, 30, |rng| {
        let n = rng.between(2, 5);
        let mut table = gen::circuits(rng, n, 2);
        for row in &mut table.rows {
            row.amount = rng.between(0, most);
        }
        route(rng, &table)
    });
    both(rng, 5, text)
}

/// One row of a large amount across, and others beside it: ratios of large numbers that
/// are alike when they are rounded.
fn nearly_alike(rng: &mut Rng, _: u64) -> Option<Case> {
    let text = joined(rng, 12, |rng| {
        let n = rng.between(4, 8);
        let mut table = gen::circuits(rng, n, 3);
        for row in &mut table.rows {
            row.amount = rng.between(9_990, 9_999);
        }
        route(rng, &table)
    });
    both(rng, 8, text)
}

/// Peaks and across numbers whose products have more than 32 bits.
fn large_loads(rng: &mut Rng, _: u64) -> Option<Case> {
    let text = joined(rng, 5, |rng| {
        let (n, count) = (rng.between(3, 9), rng.between(1, 200) as usize);
        let mut table = gen::circuits(rng, n, count);
        for row in &mut table.rows {
            row.amount = rng.between(9_000, 9_999);
        }
        sheet_text(&table, &rules::plan(&table))
    });
    both(rng, 9, text)
}

/// Plans that do not enter, among such as do; some of them name a cut of across number
/// 0, which is no proof, so that they are refused.
fn none_across(rng: &mut Rng, _: u64) -> Option<Case> {
    let others = rng.chance(1, 2);
    let text = joined(rng, 9, |rng| {
        let mut table = table(rng, 2, 20);
        if !others || rng.chance(2, 3) {
            table.rows.iter_mut().for_each(|row| row.amount = 0);
        }
        let plan = match rng.below(3) {
            0 => foreign::plan(rng, &table),
            _ => rules::plan(&table),
        };
        sheet_text(&table, &plan)
    });
    both(rng, 20, text)
}

/// What is no sheet: a table, a matrix, lines of a sheet, noise.
fn no_sheet(rng: &mut Rng) -> Vec<u8> {
    match rng.below(5) {
        0 => table_text(&table(rng, 2, 8)),
        1 => matrices::any(rng, 0).map_or(Vec::new(), |case| case.text),
        2 => {
            let sheet = of_another_tool(rng);
            let lines = gen::lines_of(&sheet);
            lines[rng.below(lines.len())..].concat()
        }
        3 => b"E\t2\t1\t1\n".to_vec(),
        _ => gen::noise(rng),
    }
}

fn before_first(rng: &mut Rng, case: u64) -> Option<Case> {
    let mut text = no_sheet(rng);
    if case % 3 > 0 {
        text.push(b'\n');
    }
    text.extend(routed(rng, case)?.text);
    both(rng, 12, text)
}

/// One piece, or none at all.
fn no_ring_line(rng: &mut Rng, case: u64) -> Option<Case> {
    let mut text = match case % 3 {
        0 => no_sheet(rng),
        1 => routed(rng, case)?.text,
        _ => large(rng, case)?.text,
    };
    text.retain(|byte| *byte != b'R');
    both(rng, 12, text)
}

/// Sheets, of which one is damaged.
fn one_damaged(rng: &mut Rng, case: u64) -> Option<Case> {
    let mut text = routed(rng, case)?.text;
    let mut sheet = if case % 2 == 0 {
        of_another_tool(rng)
    } else {
        let table = table(rng, 2, 30);
        route(rng, &table)
    };
    gen::damage_any(rng, &mut sheet, gen::damage_sheet_row);
    text.extend(sheet);
    text.extend(foreign_sheets(rng, case)?.text);
    both(rng, 30, text)
}

/// Damage that may make and break lines that start with R.
fn damaged(rng: &mut Rng, case: u64) -> Option<Case> {
    let makes: [Make; 4] = [routed, large, foreign_sheets, alike];
    let mut made = makes[case as usize % makes.len()](rng, case)?;
    for _ in 0..rng.pick(&[1, 1, 2, 5]) {
        gen::damage_any(rng, &mut made.text, gen::damage_sheet_row);
    }
    Some(made)
}

/// An R, or what is nearly a line that starts with R, put in at some place, or for the
/// start of some line.
fn other_letters(rng: &mut Rng, case: u64) -> Option<Case> {
    let mut made = routed(rng, case)?;
    let put = rng.pick(&[
        b"R".as_slice(),
        b"\nR",
        b"\rR",
        b"\n\rR",
        b" R",
        b"r",
        b"R\n",
        b"\0R",
        b"\x0bR",
        b"\x0cR",
        b"\nr",
        b"\n R",
        b"\nRR",
    ]);
    for _ in 0..rng.pick(&[1, 2]) {
        let lines = gen::lines_of(&made.text);
        let start = lines[..rng.below(lines.len() + 1)].concat().len();
        let any = rng.below(made.text.len() + 1);
        let at = rng.pick(&[start, start, any]);
        made.text.splice(at..at, put.iter().copied());
    }
    Some(made)
}

/// LF made CR or CR LF, all of them or one, or left out.
fn line_ends(rng: &mut Rng, case: u64) -> Option<Case> {
    let mut made = routed(rng, case)?;
    let feeds = made.text.iter().filter(|byte| **byte == b'\n').count();
    let one = rng.below(feeds + 1);
    let all = rng.chance(1, 3);
    let end = rng.pick(&[b"\r".as_slice(), b"\r\n", b"\n\r", b"", b"\n\n"]);
    let lines = gen::lines_of(&made.text).into_iter().enumerate();
    let changed = lines.flat_map(|(at, mut line)| {
        if (all || at == one) && line.ends_with(b"\n") {
            line.pop();
            line.extend(end);
        }
        line
    });
    made.text = changed.collect();
    Some(made)
}

/// Sheets doubled, exchanged and left out, R lines alone among them.
fn pieces_moved(rng: &mut Rng, case: u64) -> Option<Case> {
    let text = foreign_sheets(rng, case)?.text;
    let mut pieces = report::pieces(&text);
    for _ in 0..rng.pick(&[1, 2, 4]) {
        let at = rng.below(pieces.len() + 1);
        match rng.below(4) {
            0 => pieces.insert(at, b"R\t4\t4\n"),
            1 if at < pieces.len() => pieces.insert(at, pieces[at]),
            2 if at < pieces.len() => drop(pieces.remove(at)),
            3 if at < pieces.len() => pieces.swap(at, 0),
            _ => (),
        }
    }
    both(rng, 24, pieces.concat())
}

/// Texts made about as long as a piece or all of them may be.
fn padded(rng: &mut Rng, case: u64) -> Option<Case> {
    let mut made = routed(rng, case)?;
    let lengths = [
        TEXT,
        TEXT + 1,
        REPORT_TEXT - 1,
        REPORT_TEXT,
        REPORT_TEXT,
        REPORT_TEXT + 1,
        REPORT_TEXT + 1,
        98_304,
    ];
    let length = rng.pick(&lengths);
    gen::pad(rng, &mut made.text, length);
    Some(made)
}

fn noise(rng: &mut Rng, case: u64) -> Option<Case> {
    let mut text = joined(rng, 4, gen::noise);
    if case % 4 == 0 {
        text = sheets::no_sheets(rng, case)?.text;
    }
    both(rng, 2, text)
}

/// A few sheets, whoever filled them, or what is none, for the twin's own checks.
pub fn several(rng: &mut Rng) -> Vec<u8> {
    let mut text = if rng.chance(1, 4) {
        no_sheet(rng)
    } else {
        Vec::new()
    };
    text.extend(joined(rng, 5, of_another_tool));
    text
}
