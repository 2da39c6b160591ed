//! A table and its reading: reasons 1 to 7, 16 and 20, with their bytes, in their
//! order (Rules, the order of reasons).

use crate::family::{Family, FAMILIES};
use crate::limits::{AMOUNT, DIGITS, OFFICES, ROWS, TEXT};
use crate::shape::{self, first_fault, Shape};

/// A demand has two nodes, the first below the second, and an amount.
#[derive(Clone, Copy, PartialEq, Eq, Debug)]
pub struct Row {
    pub first: i64,
    pub second: i64,
    pub amount: i64,
}

impl Row {
    pub fn of(first: i64, second: i64, amount: i64) -> Row {
        Row {
            first,
            second,
            amount,
        }
    }
}

/// Nodes 1..n, the fibres, the family and the rows in table order.
#[derive(Clone, PartialEq, Eq, Debug)]
pub struct Table {
    pub n: i64,
    pub fibres: i64,
    pub family: Family,
    pub rows: Vec<Row>,
}

/// A refusal returns only reason, line and the byte in the line,
/// counted from 1; 0 where the line is 0.
#[derive(Clone, Copy, PartialEq, Eq, Debug)]
pub struct Refusal {
    pub reason: u32,
    pub line: u32,
    pub byte: u32,
}

impl Refusal {
    /// What stands in a reply that is none.
    pub const NONE: Refusal = Refusal {
        reason: 0,
        line: 0,
        byte: 0,
    };
}

pub fn refuse<T>(reason: u32, line: u32, byte: u32) -> Result<T, Refusal> {
    Err(Refusal { reason, line, byte })
}

/// 2, where a line that is there has none of the shapes that are due.
pub fn misshapen<T>(line: &Line, at: u32, shapes: &[Shape]) -> Result<T, Refusal> {
    refuse(2, at, first_fault(line, shapes))
}

/// The byte where a field starts, the letter being field 0: behind each field
/// before it there is one byte more.
pub fn start_of(line: &Line, field: usize) -> u32 {
    let fields = line.bytes.split(|byte| *byte == b'\t');
    let before: usize = fields.take(field).map(|bytes| bytes.len() + 1).sum();
    before as u32 + 1
}

/// Reason 1 is tried first.
pub fn read_length(text: &[u8]) -> Result<(), Refusal> {
    if text.len() > TEXT {
        return refuse(1, 0, 0);
    }
    Ok(())
}

/// A reason that a row may get: its number, and whether it holds of the row's
/// numbers behind the rows above.
pub type RowReason = (u32, fn(&[i64], &Table) -> bool);

/// Whether a node is none of 1..n.
fn outside(node: i64, n: i64) -> bool {
    node < 1 || node > n
}

/// 4, of two nodes: one of them is outside 1..n.
pub fn off_ring(nodes: &[i64], n: i64) -> bool {
    nodes.iter().any(|node| outside(*node, n))
}

/// 5, of two nodes: the first is not below the second.
pub fn not_below(nodes: &[i64]) -> bool {
    nodes[0] >= nodes[1]
}

/// 7: the amount is over the limit.
pub fn too_much(amount: i64) -> bool {
    amount > AMOUNT
}

pub const OFF_RING: RowReason = (4, |row, above| off_ring(&row[..2], above.n));
pub const NOT_BELOW: RowReason = (5, |row, _| not_below(&row[..2]));
/// Row's nodes below the row before, by first node, then second.
pub const FALLEN: RowReason = (6, |row, above| {
    let before = above
        .rows
        .last()
        .map(|before| (before.first, before.second));
    before.is_some_and(|before| (row[0], row[1]) < before)
});
/// More rows than there may be.
pub const TOO_MANY: RowReason = (16, |_, above| above.rows.len() + 1 > ROWS);
pub const TOO_MUCH: RowReason = (7, |row, _| too_much(row[2]));

/// In the order within a line: 16 stands between 6 and 7.
pub const ROW_REASONS: [RowReason; 5] = [OFF_RING, NOT_BELOW, FALLEN, TOO_MANY, TOO_MUCH];

/// The table's values, or the refusal.
pub fn read(text: &[u8]) -> Result<Table, Refusal> {
    read_judging(text, &ROW_REASONS)
}

/// The length first, then lines in order.
pub fn read_judging(text: &[u8], reasons: &[RowReason]) -> Result<Table, Refusal> {
    read_length(text)?;
    let lines = lines(text);
    // A missing line is the one after the last.
    let Some(first) = lines.first() else {
        return refuse(2, 1, 1);
    };
    let mut table = read_ring(first)?;
    for (at, line) in lines.iter().enumerate().skip(1) {
        let row = read_row(line, at as u32 + 1, &table, reasons)?;
        table.rows.push(row);
    }
    Ok(table)
}

/// One line of a text, without its LF, and whether it ended with one.
#[derive(Clone, Copy)]
pub struct Line<'a> {
    pub bytes: &'a [u8],
    pub ended: bool,
}

/// Lines end with LF, the last one too. What stands after the last LF is a
/// line only if it has a byte.
pub fn lines(text: &[u8]) -> Vec<Line<'_>> {
    let pieces: Vec<&[u8]> = text.split(|byte| *byte == b'\n').collect();
    let last = pieces.len() - 1;
    let mut lines = Vec::new();
    for (at, bytes) in pieces.into_iter().enumerate() {
        if at < last || !bytes.is_empty() {
            let ended = at < last;
            lines.push(Line { bytes, ended });
        }
    }
    lines
}

/// The numbers of a line of the right shape: the letter, then `count` numbers,
/// fields parted by one tab, LF at the end. None is reason 2.
pub fn numbers(line: &Line, letter: &[u8], count: usize) -> Option<Vec<i64>> {
    let fields: Vec<&[u8]> = line.bytes.split(|byte| *byte == b'\t').collect();
    if !line.ended || fields.len() != count + 1 || fields[0] != letter {
        return None;
    }
    fields[1..].iter().map(|field| number(field)).collect()
}

/// Numbers are 1 to 8 digits with no leading zero but 0 itself.
pub fn number(field: &[u8]) -> Option<i64> {
    let digits = field.iter().all(|byte| byte.is_ascii_digit());
    if field.is_empty() || field.len() > DIGITS || !digits {
        return None;
    }
    if field[0] == b'0' && field.len() > 1 {
        return None;
    }
    let mut value = 0;
    for digit in field {
        value = 10 * value + i64::from(digit - b'0');
    }
    Some(value)
}

/// The two numbers of an R line, and the family: SDH where M is behind them, SONET
/// where nothing is.
pub fn ring_fields(line: &Line) -> Option<(Vec<i64>, Family)> {
    let sdh = line.bytes.strip_suffix(b"\tM");
    let bytes = sdh.unwrap_or(line.bytes);
    let ended = line.ended;
    let numbers = numbers(&Line { bytes, ended }, b"R", 2)?;
    Some((numbers, FAMILIES[usize::from(sdh.is_some())]))
}

/// `R n fibres`, or `R n fibres M`: in the line 2, then 3, where n starts, then 20, where
/// the fibres start. The ring is a table that has no row yet.
pub fn read_ring(line: &Line) -> Result<Table, Refusal> {
    let Some((numbers, family)) = ring_fields(line) else {
        return misshapen(line, 1, &shape::ring());
    };
    let (n, fibres, rows) = (numbers[0], numbers[1], Vec::new());
    if !known_size(n) {
        return refuse(3, 1, start_of(line, 1));
    }
    if !known_fibres(fibres) {
        return refuse(20, 1, start_of(line, 2));
    }
    Ok(Table {
        n,
        fibres,
        family,
        rows,
    })
}

/// 3 is given where this is not so.
pub fn known_size(n: i64) -> bool {
    (2..=OFFICES).contains(&n)
}

/// 20 is given where this is not so.
pub fn known_fibres(fibres: i64) -> bool {
    fibres == 2 || fibres == 4
}

/// `D i j amount`: in the line first 2, then the row's own reasons.
fn read_row(line: &Line, at: u32, above: &Table, reasons: &[RowReason]) -> Result<Row, Refusal> {
    let Some(numbers) = numbers(line, b"D", 3) else {
        return misshapen(line, at, &[shape::lettered(b"D", 3)]);
    };
    judge_row(line, &numbers, at, above, reasons)
}

/// Where a reason of a row points: 4 to the first of the two nodes that is outside, 7
/// to the amount; the others judge the line as a whole.
fn byte_of_row(reason: u32, line: &Line, numbers: &[i64], n: i64) -> u32 {
    match reason {
        4 if outside(numbers[0], n) => start_of(line, 1),
        4 => start_of(line, 2),
        7 => start_of(line, 3),
        _ => 1,
    }
}

/// The first reason that holds of a row's nodes, place and amount.
pub fn reason_of_row(numbers: &[i64], above: &Table, reasons: &[RowReason]) -> Option<u32> {
    let mut reasons = reasons.iter();
    let first = reasons.find(|(_, holds)| holds(numbers, above));
    first.map(|(reason, _)| *reason)
}

/// The row of a line, or its refusal. Nodes and amount stand first in the row of a
/// sheet too.
pub fn judge_row(
    line: &Line,
    numbers: &[i64],
    at: u32,
    above: &Table,
    reasons: &[RowReason],
) -> Result<Row, Refusal> {
    if let Some(reason) = reason_of_row(numbers, above, reasons) {
        return refuse(reason, at, byte_of_row(reason, line, numbers, above.n));
    }
    Ok(Row::of(numbers[0], numbers[1], numbers[2]))
}
