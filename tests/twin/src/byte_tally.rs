//! What the bytes of refusals pointed to (Rules, the byte): by reason, line and
//! field, and what must have been seen.

use crate::table::{self, Line};
use crate::twin::{Call, Said};
use std::collections::{BTreeMap, BTreeSet};

/// What a line should have been, by the lines above it.
#[derive(Clone, Copy, PartialEq, Eq, Debug)]
pub enum Due {
    Ring,
    /// A row of a table.
    Row,
    /// A row of a sheet, or its cut.
    RowOrCut,
    Link,
    Last,
    /// The first line of a matrix, and a later one of so many fields.
    First,
    Later(usize),
    /// The line is left over.
    Nothing,
}

fn fields(line: &Line) -> usize {
    line.bytes.iter().filter(|byte| **byte == b'\t').count() + 1
}

/// What is due on a line behind lines that have all passed.
pub fn due(call: Call, lines: &[Line], at: usize) -> Due {
    match call {
        Call::ReadMatrix(..) => due_in_matrix(lines, at),
        _ if at == 1 => Due::Ring,
        Call::Route
        | Call::RouteBest
        | Call::RouteLowered
        | Call::RouteLoweredBest
        | Call::Rewrite
        | Call::WriteMatrix => Due::Row,
        _ => due_in_sheet(lines, at),
    }
}

fn due_in_matrix(lines: &[Line], at: usize) -> Due {
    match lines.first().map_or(0, fields) {
        _ if at == 1 => Due::First,
        n if at > n => Due::Nothing,
        n => Due::Later(n),
    }
}

fn due_in_sheet(lines: &[Line], at: usize) -> Due {
    let cut = lines.iter().position(|line| line.bytes.starts_with(b"C"));
    let ring = lines.first().and_then(table::ring_fields);
    let n = ring.map_or(0, |(ring, _)| ring[0] as usize);
    match cut.filter(|cut| cut + 1 < at) {
        None => Due::RowOrCut,
        Some(cut) if at <= cut + 1 + n => Due::Link,
        Some(cut) if at == cut + 2 + n => Due::Last,
        Some(_) => Due::Nothing,
    }
}

/// What stands at a byte of a line.
const STANDING: [&str; 5] = ["the end", "LF", "a tab", "a digit", "another byte"];

fn standing(line: &Line, byte: u32) -> &'static str {
    let at = byte as usize - 1;
    STANDING[match line.bytes.get(at) {
        None if at == line.bytes.len() && line.ended => 1,
        None => 0,
        Some(b'\t') => 2,
        Some(b'0'..=b'9') => 3,
        Some(_) => 4,
    }]
}

/// The field that a byte lies in, in words.
fn field(line: &Line, due: Due, byte: u32) -> String {
    let before = &line.bytes[..line.bytes.len().min(byte as usize - 1)];
    let field = before.iter().filter(|byte| **byte == b'\t').count();
    match due {
        Due::First | Due::Later(_) if field == 0 => "first field".to_string(),
        Due::Later(n) if field + 1 == n => "last field".to_string(),
        Due::First | Due::Later(_) => "field between".to_string(),
        _ if field > 0 => format!("field {field}"),
        _ if byte > 1 => "behind the letter".to_string(),
        _ => "letter".to_string(),
    }
}

/// The line in words. Of a row or cut it is told by its letter, if that is right.
fn name(due: Due, line: &Line, byte: u32) -> &'static str {
    match due {
        Due::Ring => "R",
        Due::Row => "D",
        Due::RowOrCut if byte == 1 => "D or C",
        Due::RowOrCut if line.bytes.starts_with(b"C") => "C",
        Due::RowOrCut => "D",
        Due::Link => "L",
        Due::Last => "Z",
        Due::First => "first",
        Due::Later(_) => "later",
        Due::Nothing => "left over",
    }
}

fn text_of(call: Call) -> &'static str {
    match call {
        Call::ReadMatrix(..) => "matrix",
        Call::Route
        | Call::RouteBest
        | Call::RouteLowered
        | Call::RouteLoweredBest
        | Call::Rewrite
        | Call::WriteMatrix => "table",
        _ => "sheet",
    }
}

/// Reasons that point to a field; 3 does but in a matrix.
fn of_field(reason: u32, call: Call) -> bool {
    let matrix = matches!(call, Call::ReadMatrix(..));
    matches!(reason, 4 | 7 | 17 | 18 | 20) || reason == 3 && !matrix
}

/// What a refusal points to, in words.
fn pointed(call: Call, text: &[u8], reason: u32, (line, byte): (u32, u32)) -> String {
    let what = format!("{reason} of a {}", text_of(call));
    if line == 0 {
        return format!("{what}, no line");
    }
    let lines = table::lines(text);
    let due = due(call, &lines, line as usize);
    let Some(there) = lines.get(line as usize - 1) else {
        let none = Line {
            bytes: b"",
            ended: false,
        };
        return format!("{what}, {} line, missing", name(due, &none, 1));
    };
    if reason == 2 && due == Due::Nothing {
        return format!("{what}, line left over");
    }
    if reason == 2 {
        let (line, field) = (name(due, there, byte), field(there, due, byte));
        return format!("{what}, {line} line, {field}: {}", standing(there, byte));
    }
    if of_field(reason, call) {
        return format!("{what}, {}", field(there, due, byte));
    }
    format!("{what}, line as a whole")
}

/// How often the bytes of refusals pointed to each kind of place, and how often on
/// 16 offices and more.
#[derive(Default)]
pub struct ByteTally {
    seen: BTreeMap<String, [u64; 2]>,
}

impl ByteTally {
    pub fn count(&mut self, call: Call, text: &[u8], said: Said, large: bool) {
        if said.reason() == 0 {
            return;
        }
        let words = pointed(call, text, said.reason(), said.place());
        let [all, on_large] = self.seen.entry(words).or_default();
        *all += 1;
        *on_large += u64::from(large);
    }

    /// Prints the counts, those of reason 2 by line. True when every kind of place
    /// was seen on 16 offices and more.
    pub fn print(&self) -> bool {
        let mut lines: BTreeMap<String, Vec<u64>> = BTreeMap::new();
        for (words, [_, large]) in &self.seen {
            let group = words.split(" line, ").next().unwrap_or(words);
            lines.entry(group.to_string()).or_default().push(*large);
        }
        for (group, counts) in &lines {
            let (least, all) = (counts.iter().min(), counts.iter().sum::<u64>());
            let (kinds, least) = (counts.len(), least.copied().unwrap_or(0));
            if kinds == 1 {
                println!("byte of {group}: {all} on 16 offices and more");
            } else {
                println!("byte of {group} line: {all} on 16 offices and more, at {kinds} kinds of place, at each {least} at least");
            }
        }
        let demanded = demanded();
        let unseen: Vec<&String> = demanded.iter().filter(|at| !self.is_seen(at)).collect();
        for words in &unseen {
            println!("no byte on 16 offices and more: {words}");
        }
        let (seen, all) = (demanded.len() - unseen.len(), demanded.len());
        println!("kinds of place that bytes point to, on 16 offices and more: {seen} of {all}");
        unseen.is_empty()
    }

    fn is_seen(&self, words: &str) -> bool {
        self.seen.get(words).is_some_and(|[_, large]| *large > 0)
    }
}

/// All that stands at a faulty byte of a field, as number in `STANDING`.
const ANYTHING: [usize; 5] = [0, 1, 2, 3, 4];
/// In a letter's place: a line that is there has a byte. Behind a letter a tab is
/// right, and behind the way LF is.
const FOR_LETTER: [usize; 4] = [1, 2, 3, 4];
const BEHIND_LETTER: [usize; 4] = [0, 1, 3, 4];

/// Lines of a table and a sheet: letter, and how many fields follow.
const LETTERED: [(&str, &str, usize); 7] = [
    ("table", "R", 3),
    ("table", "D", 3),
    ("sheet", "R", 3),
    ("sheet", "D", 6),
    ("sheet", "C", 3),
    ("sheet", "L", 3),
    ("sheet", "Z", 2),
];

fn of_shape(text: &str, line: &str, field: &str, standing: &[usize]) -> Vec<String> {
    let words = |at: &usize| format!("2 of a {text}, {line} line, {field}: {}", STANDING[*at]);
    standing.iter().map(words).collect()
}

/// Every kind of place that a byte of reason 2 can point to.
fn demanded_of_shapes() -> Vec<String> {
    let mut all = Vec::new();
    for (text, line, fields) in LETTERED {
        let either = text == "sheet" && "DC".contains(line);
        let first = if either { "D or C" } else { line };
        all.extend(of_shape(text, first, "letter", &FOR_LETTER));
        all.extend(of_shape(text, line, "behind the letter", &BEHIND_LETTER));
        for field in 1..=fields {
            all.extend(of_shape(text, line, &format!("field {field}"), &ANYTHING));
        }
    }
    for field in ["first field", "field between"] {
        all.extend(of_shape("matrix", "first", field, &ANYTHING));
    }
    for field in ["first field", "field between", "last field"] {
        all.extend(of_shape("matrix", "later", field, &ANYTHING));
    }
    all
}

/// The others. An empty text is the one table that misses a line. 18 is given to the
/// entry that is read first, which is never the first of a line.
const OTHERS: [&str; 43] = [
    "2 of a sheet, R line, missing",
    "2 of a sheet, D or C line, missing",
    "2 of a sheet, L line, missing",
    "2 of a sheet, Z line, missing",
    "2 of a sheet, line left over",
    "2 of a table, R line, missing",
    "2 of a matrix, first line, missing",
    "2 of a matrix, later line, missing",
    "2 of a matrix, line left over",
    "3 of a table, field 1",
    "3 of a sheet, field 1",
    "3 of a matrix, line as a whole",
    "20 of a table, field 2",
    "20 of a sheet, field 2",
    "20 of a matrix, no line",
    "4 of a table, field 1",
    "4 of a table, field 2",
    "4 of a sheet, field 1",
    "4 of a sheet, field 2",
    "7 of a table, field 3",
    "7 of a sheet, field 3",
    "7 of a matrix, first field",
    "7 of a matrix, field between",
    "7 of a matrix, last field",
    "17 of a matrix, first field",
    "17 of a matrix, field between",
    "17 of a matrix, last field",
    "18 of a matrix, field between",
    "18 of a matrix, last field",
    "5 of a table, line as a whole",
    "5 of a sheet, line as a whole",
    "6 of a table, line as a whole",
    "6 of a sheet, line as a whole",
    "16 of a table, line as a whole",
    "16 of a sheet, line as a whole",
    "8 of a sheet, line as a whole",
    "9 of a sheet, line as a whole",
    "10 of a sheet, line as a whole",
    "11 of a sheet, line as a whole",
    "12 of a sheet, line as a whole",
    "13 of a sheet, no line",
    "14 of a sheet, no line",
    "19 of a table, line as a whole",
];

fn demanded() -> BTreeSet<String> {
    let others = OTHERS.iter().map(|words| words.to_string());
    let no_line = [1, 15].into_iter().flat_map(|reason| {
        ["table", "sheet", "matrix"].map(|text| format!("{reason} of a {text}, no line"))
    });
    others.chain(no_line).chain(demanded_of_shapes()).collect()
}
