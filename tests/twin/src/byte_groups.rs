//! Groups for the byte of a refusal: in tables, sheets and matrices of 20, of 32
//! and of 64 offices, each field of first, middle and last lines spelled in many
//! ways, lines missing and left over, and several faults in one line.

use crate::bars::tabbed;
use crate::compare::{Case, Lend, NONE};
use crate::family::FAMILIES;
use crate::foreign;
use crate::gen::{self, Amounts};
use crate::matrices::square;
use crate::matrix::matrix_text;
use crate::rng::Rng;
use crate::sheet::{sheet_text, table_text};
use crate::table::Table;
use crate::twin::Call;
use std::sync::LazyLock;

/// A text of many lines, and those of them that are to be damaged.
#[derive(Clone)]
struct Whole {
    offices: i64,
    calls: [Call; 3],
    lines: Vec<Vec<u8>>,
    damaged: Vec<usize>,
}

const OF_TABLE: [Call; 3] = [Call::Route, Call::Rewrite, Call::WriteMatrix];
const OF_SHEET: [Call; 3] = [Call::Check, Call::Parallel, Call::RewriteSheet];
const OF_MATRIX: [Call; 3] = [
    Call::ReadMatrix(4, 0),
    Call::ReadMatrix(2, 1),
    Call::ReadMatrix(4, 1),
];

/// Made once, as they are damaged thousands of times.
static WHOLES: LazyLock<Vec<Whole>> = LazyLock::new(|| (0..9).map(whole).collect());

/// A full table, a sheet of many rows and a full matrix, of 20, of 32 and of 64 offices;
/// of the table of 64 the rows are near ones, so that it is soon routed.
/// Each is the same every time, and of both families there are tables and sheets.
fn whole(which: usize) -> Whole {
    let rng = &mut Rng::new(which as u64);
    let offices = [20, 32, 64][which % 3];
    let family = FAMILIES[which % 2];
    let of = |table: Table| Table { family, ..table };
    let full = |rng: &mut Rng| of(gen::full(rng, offices, Amounts::UpTo(9_999)));
    let (calls, text) = match which / 3 {
        0 if offices == 64 => {
            let near = of(gen::near(rng, offices, Amounts::UpTo(9_999)));
            (OF_TABLE, table_text(&near))
        }
        0 => (OF_TABLE, table_text(&full(rng))),
        1 => {
            let (table, plan) = foreign::all_across(rng, offices, 190);
            (OF_SHEET, sheet_text(&of(table), &plan))
        }
        _ => (OF_MATRIX, matrix_text(&square(&full(rng)))),
    };
    let lines = gen::lines_of(&text);
    let damaged = ends_of_runs(&lines);
    Whole {
        offices,
        calls,
        lines,
        damaged,
    }
}

fn any_whole(rng: &mut Rng) -> Whole {
    WHOLES[rng.below(WHOLES.len())].clone()
}

/// The first, the middle and the last line of those with the same letter; of a matrix,
/// which has none, of all lines, and its second line.
fn ends_of_runs(lines: &[Vec<u8>]) -> Vec<usize> {
    let mut chosen = Vec::new();
    for letter in b"RDCLZ" {
        let with: Vec<usize> = (0..lines.len())
            .filter(|at| lines[*at][0] == *letter)
            .collect();
        if let (Some(first), Some(last)) = (with.first(), with.last()) {
            chosen.extend([*first, with[with.len() / 2], *last]);
        }
    }
    if chosen.is_empty() {
        chosen = vec![0, 1, lines.len() / 2, lines.len() - 1];
    }
    chosen.dedup();
    chosen
}

impl Whole {
    /// The text with a line made another and, unless it goes on, nothing behind it.
    fn with_line(mut self, at: usize, line: Vec<u8>, goes_on: bool, case: u64) -> Option<Case> {
        self.lines[at] = line;
        if !goes_on {
            self.lines.truncate(at + 1);
        }
        self.case(case)
    }

    fn case(self, case: u64) -> Option<Case> {
        let call = self.calls[case as usize % 3];
        let lend = if call.writes() { Lend::Need(1) } else { NONE };
        Some(Case {
            offices: self.offices,
            text: self.lines.concat(),
            trials: vec![(call, lend)],
        })
    }
}

/// How a field may be spelled: * is the field itself, | a tab, / ends the line there
/// and $ the text. First those of the wrong shape, then values out of range.
const SPELLINGS: [&str; 40] = [
    "",
    "0*",
    "00",
    "100000000",
    "*00000000",
    "* ",
    " *",
    "x",
    "X",
    "f",
    "m",
    "M",
    "*M",
    "*|M",
    "-1",
    "**",
    "*0",
    "*1",
    "1",
    "*\r",
    "*|*",
    "*|",
    "|*",
    "|",
    "*/",
    "/",
    "*$",
    "$",
    "*|$",
    "*|/",
    "*x/",
    "*x$",
    "*000000000$",
    "0",
    "65",
    "21",
    "3",
    "9999",
    "10000",
    "99999999",
];

/// The fields of a line to be spelled otherwise: all but of a matrix, of which they are
/// the first two, the middle and the last.
fn chosen_fields(line: &[u8]) -> Vec<usize> {
    let count = line.iter().filter(|byte| **byte == b'\t').count() + 1;
    if count > 7 {
        return vec![0, 1, count / 2, count - 1];
    }
    (0..count).collect()
}

/// The line with one field in another spelling, and whether the text goes on behind it.
fn spelled(line: &[u8], field: usize, spelling: &str) -> (Vec<u8>, bool) {
    let body = line.strip_suffix(b"\n").unwrap_or(line);
    let mut fields: Vec<Vec<u8>> = body
        .split(|byte| *byte == b'\t')
        .map(|field| field.to_vec())
        .collect();
    let mut new = Vec::new();
    for byte in spelling.bytes() {
        match byte {
            b'*' => new.extend_from_slice(&fields[field]),
            b'|' => new.push(b'\t'),
            b'/' | b'$' => fields.truncate(field + 1),
            _ => new.push(byte),
        }
    }
    fields[field] = new;
    let ends = spelling.ends_with('$');
    let end: &[u8] = if ends { b"" } else { b"\n" };
    ([fields.join(&b'\t').as_slice(), end].concat(), !ends)
}

/// Each chosen field of each chosen line of each text in each spelling.
pub fn every_field(_: &mut Rng, case: u64) -> Option<Case> {
    let spelling = SPELLINGS[case as usize % SPELLINGS.len()];
    let mut number = case as usize / SPELLINGS.len();
    for whole in WHOLES.iter() {
        for at in &whole.damaged {
            let fields = chosen_fields(&whole.lines[*at]);
            if let Some(field) = fields.get(number) {
                let (line, goes_on) = spelled(&whole.lines[*at], *field, spelling);
                return whole.clone().with_line(*at, line, goes_on, case);
            }
            number -= fields.len();
        }
    }
    None
}

/// Lines put behind the text: bare, badly spelled, and such as could stand above.
const LEFT_OVER: [&str; 10] = [
    "", "x", "Z|", "Z|0|3", "Z|0|x", "D|1|2|3", "L|1|0|0", "0|0", "0|x", "R|2|4",
];

/// Each text cut behind each of its chosen lines, or before its first; then each with
/// a line left over, its last one over again among them, with LF and without it.
pub fn lines_about(_: &mut Rng, case: u64) -> Option<Case> {
    let mut number = case as usize;
    for mut whole in WHOLES.iter().cloned() {
        let (cuts, more) = (whole.damaged.len() + 1, 2 * (LEFT_OVER.len() + 1));
        if number < cuts {
            let before = number.checked_sub(1);
            let kept = before.map_or(0, |at| whole.damaged[at] + 1);
            whole.lines.truncate(kept);
            return whole.case(case);
        }
        if number < cuts + more {
            let (line, ended) = ((number - cuts) / 2, number % 2 == 0);
            let mut bytes = whole.lines.last()?.clone();
            if let Some(line) = LEFT_OVER.get(line) {
                bytes = [tabbed(line).as_slice(), b"\n"].concat();
            }
            bytes.truncate(bytes.len() - usize::from(!ended));
            whole.lines.push(bytes);
            return whole.case(case);
        }
        number -= cuts + more;
    }
    None
}

/// Two nodes, at most one of them on the ring.
fn nodes_outside(rng: &mut Rng, n: i64) -> (i64, i64) {
    let outside = [0, n + 1, 99, 256 + n, 65_537, 99_999_999];
    let (inside, one, other) = (rng.between(1, n), rng.pick(&outside), rng.pick(&outside));
    match rng.below(3) {
        0 => (one, inside),
        1 => (inside, one),
        _ => (one, other),
    }
}

/// A row of a table or sheet made one with nodes outside or too large an amount, or
/// several entries of a matrix made too large or put on its diagonal.
pub fn values(rng: &mut Rng, case: u64) -> Option<Case> {
    let mut whole = any_whole(rng);
    let n = whole.offices;
    let rows: Vec<usize> = (0..whole.lines.len())
        .filter(|at| whole.lines[*at][0] == b'D')
        .collect();
    if rows.is_empty() {
        return entries(rng, whole, case);
    }
    let at = rng.pick(&rows);
    let (i, j) = nodes_outside(rng, n);
    let d = rng.pick(&[10_000, 65_536, 99_999_999]);
    let both = rng.chance(1, 4);
    let amount = both || rng.chance(1, 2);
    gen::change_fields(&mut whole.lines[at], |fields| {
        if both || !amount {
            fields[1] = i.to_string().into_bytes();
            fields[2] = j.to_string().into_bytes();
        }
        if amount {
            fields[3] = d.to_string().into_bytes();
        }
    });
    whole.case(case)
}

fn entries(rng: &mut Rng, mut whole: Whole, case: u64) -> Option<Case> {
    let n = whole.offices as usize;
    let large = rng.chance(1, 2);
    let line = rng.pick(&[0, n / 2, n - 1]);
    for _ in 0..rng.between(1, 3) {
        let (field, new) = match large {
            true => (rng.below(n), rng.pick(&["10000", "65536", "99999999"])),
            // A last office with itself comes behind all else.
            false => (line, rng.pick(&["1", "9999"])),
        };
        gen::change_fields(&mut whole.lines[line], |fields| {
            fields[field] = new.as_bytes().to_vec();
        });
    }
    whole.case(case)
}

/// One damage done to one of the texts.
pub fn damaged(rng: &mut Rng, case: u64) -> Option<Case> {
    let mut made = any_whole(rng).case(case)?;
    let damages = [gen::damage_bytes, gen::damage_lines, gen::damage_fields];
    rng.pick(&damages)(rng, &mut made.text);
    Some(made)
}

/// Long lines, at the end of which something is wrong: a first line of a matrix as long
/// as a text can be, and a number of very many digits.
pub fn long_lines(_: &mut Rng, case: u64) -> Option<Case> {
    let (what, length) = (case % 4, [200, 300, 32_767, 32_768].get(case as usize / 4)?);
    let zeros: Vec<u8> = b"0\t".iter().copied().cycle().take(*length).collect();
    let (call, text) = match what {
        0 => (Call::ReadMatrix(4, 0), zeros),
        1 => (
            Call::ReadMatrix(4, 0),
            [&zeros[..length - 1], b"x"].concat(),
        ),
        2 => (
            Call::ReadMatrix(4, 0),
            [&zeros[..length - 1], b"\n"].concat(),
        ),
        _ => (
            Call::Rewrite,
            [b"R\t64\t4\nD\t", vec![b'1'; length - 9].as_slice()].concat(),
        ),
    };
    Some(Case {
        offices: 64,
        text,
        trials: vec![(call, Lend::Need(1))],
    })
}
