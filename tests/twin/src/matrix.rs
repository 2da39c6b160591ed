//! A matrix, read into a table and written from one (Rules, matrices).

use crate::family::Family;
use crate::limits::{AMOUNT, ROWS};
use crate::shape;
use crate::table::{self, misshapen, refuse, start_of, Line, Refusal, Row, Table};

/// Entry (i,j) stands on line i, in field j. There are as many lines as the
/// first has fields.
#[derive(Clone, PartialEq, Eq, Debug)]
pub struct Matrix {
    pub lines: Vec<Vec<i64>>,
}

/// The questions behind the reasons 3, 7 and 16, where a yes is the refusal, and
/// the search for the first faulty entry.
#[derive(Clone, Copy)]
pub struct MatrixQuestions {
    pub off_size: fn(usize) -> bool,
    pub too_much: fn(i64) -> bool,
    pub faulty: fn(&Matrix) -> Option<Refusal>,
    pub too_many: fn(&Matrix) -> bool,
}

pub const MATRIX_QUESTIONS: MatrixQuestions = MatrixQuestions {
    off_size: |n| !table::known_size(n as i64),
    too_much: table::too_much,
    faulty,
    too_many: |matrix| rows(matrix).len() > ROWS,
};

/// At the first faulty entry in reading order 17, diagonal not 0, or 18, not
/// symmetric.
fn faulty(matrix: &Matrix) -> Option<Refusal> {
    for (i, entries) in matrix.lines.iter().enumerate() {
        for (j, entry) in entries.iter().enumerate() {
            if i == j && *entry != 0 {
                return Some(at_entry(matrix, i, j, 17));
            }
            if *entry != matrix.lines[j][i] {
                return Some(at_entry(matrix, i, j, 18));
            }
        }
    }
    None
}

/// The refusal that points to an entry. Before it on its line stand the entries
/// before it, each as it is written, with a byte behind it.
pub fn at_entry(matrix: &Matrix, i: usize, j: usize, reason: u32) -> Refusal {
    let written = |entry: &i64| entry.to_string().len() + 1;
    let before: usize = matrix.lines[i][..j].iter().map(written).sum();
    let (line, byte) = (i as u32 + 1, before as u32 + 1);
    Refusal { reason, line, byte }
}

/// The matrix has no number of fibres and no family; its reader is told them. 20 is tried first,
/// line 0.
pub fn read_told(text: &[u8], fibres: u32) -> Result<Matrix, Refusal> {
    if !table::known_fibres(i64::from(fibres)) {
        return refuse(20, 0, 0);
    }
    read(text)
}

/// The matrix, or the refusal.
pub fn read(text: &[u8]) -> Result<Matrix, Refusal> {
    read_asking(text, &MATRIX_QUESTIONS)
}

/// 1, 2, 3 and 7 by lines as before, then the first faulty entry, then 16, line 0,
/// where more rows are made than a table may have.
pub fn read_asking(text: &[u8], questions: &MatrixQuestions) -> Result<Matrix, Refusal> {
    table::read_length(text)?;
    let mut matrix = Matrix { lines: Vec::new() };
    for line in table::lines(text) {
        let entries = read_line(&line, &matrix, questions)?;
        matrix.lines.push(entries);
    }
    // A missing line is the one after the last; the first is never left out.
    let due = matrix.lines.first().map_or(1, |first| first.len());
    if matrix.lines.len() < due {
        return refuse(2, matrix.lines.len() as u32 + 1, 1);
    }
    match (questions.faulty)(&matrix) {
        Some(refusal) => Err(refusal),
        None if (questions.too_many)(&matrix) => refuse(16, 0, 0),
        None => Ok(matrix),
    }
}

/// The next line, behind those that stand above it: in the line 2, then 3 of the
/// first line, which is judged as a whole, then 7 at its first entry over the limit.
fn read_line(
    line: &Line,
    above: &Matrix,
    questions: &MatrixQuestions,
) -> Result<Vec<i64>, Refusal> {
    let at = above.lines.len() as u32 + 1;
    let first = above.lines.first().map(|first| first.len());
    if first.is_some_and(|n| at as usize > n) {
        // Left over, whatever it says.
        return refuse(2, at, 1);
    }
    let shape = first.map_or(shape::any_numbers(), shape::numbers);
    let read = match entries(line) {
        Some(read) if first.is_none_or(|n| n == read.len()) => read,
        _ => return misshapen(line, at, &[shape]),
    };
    if first.is_none() && (questions.off_size)(read.len()) {
        return refuse(3, at, 1);
    }
    match read.iter().position(|entry| (questions.too_much)(*entry)) {
        Some(over) => refuse(7, at, start_of(line, over)),
        None => Ok(read),
    }
}

/// The numbers that tabs part; None is reason 2.
pub fn entries(line: &Line) -> Option<Vec<i64>> {
    let fields = line.bytes.split(|byte| *byte == b'\t');
    let read: Option<Vec<i64>> = fields.map(table::number).collect();
    read.filter(|_| line.ended)
}

/// One row for each pair whose entry is above 0.
pub fn rows(matrix: &Matrix) -> Vec<Row> {
    let n = matrix.lines.len();
    let mut rows = Vec::new();
    for i in 0..n {
        for j in i + 1..n {
            let d = matrix.lines[i][j];
            if d > 0 {
                let (i, j) = (i as i64 + 1, j as i64 + 1);
                rows.push(Row::of(i, j, d));
            }
        }
    }
    rows
}

/// Its rows. The ring size is the number of fields of the first line.
pub fn table_of(matrix: &Matrix, fibres: u32, family: u32) -> Table {
    Table {
        n: matrix.lines.len() as i64,
        fibres: i64::from(fibres),
        family: Family::told(family),
        rows: rows(matrix),
    }
}

/// The square of a ring, all 0.
pub fn zeros(n: i64) -> Matrix {
    let lines = vec![vec![0; n as usize]; n as usize];
    Matrix { lines }
}

/// Puts a pair's demand into both halves.
pub fn set(matrix: &mut Matrix, i: i64, j: i64, d: i64) {
    let (i, j) = (i as usize - 1, j as usize - 1);
    matrix.lines[i][j] = d;
    matrix.lines[j][i] = d;
}

/// Writing adds up rows of one pair. 19 is on the row where a pair's sum passes
/// 9,999.
pub fn add_up(table: &Table) -> Result<Matrix, Refusal> {
    take_in(table, |sum, d| sum + d, AMOUNT)
}

/// Each row taken into what its pair has so far, up to a limit.
pub fn take_in(table: &Table, take: fn(i64, i64) -> i64, limit: i64) -> Result<Matrix, Refusal> {
    let mut matrix = zeros(table.n);
    for (at, row) in table.rows.iter().enumerate() {
        let sum = take(
            matrix.lines[row.first as usize - 1][row.second as usize - 1],
            row.amount,
        );
        if sum > limit {
            return refuse(19, at as u32 + 2, 1);
        }
        set(&mut matrix, row.first, row.second, sum);
    }
    Ok(matrix)
}

/// n lines of n numbers parted by tabs.
pub fn matrix_text(matrix: &Matrix) -> Vec<u8> {
    let mut text = String::new();
    for entries in &matrix.lines {
        let fields: Vec<String> = entries.iter().map(|entry| entry.to_string()).collect();
        text.push_str(&fields.join("\t"));
        text.push('\n');
    }
    text.into_bytes()
}
