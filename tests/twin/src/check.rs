//! Checking a sheet (Rules, reading and judging): reading its text, all lines of
//! it, reasons 1 to 7, 16 and 20 with their bytes; then judging what was read,
//! reasons 8 to 14. Values that were never a text are judged the same way, their
//! ring and rows too. And the question for a parallel pair.

use crate::family::Family;
use crate::rules::{self, Cut, Plan, Sent, Way};
use crate::shape::{self, Shape};
use crate::table::{self, misshapen, refuse, Line, Refusal, RowReason, Table, ROW_REASONS};

/// What a sheet says.
#[derive(Clone, PartialEq, Eq, Debug)]
pub struct Sheet {
    pub table: Table,
    pub plan: Plan,
    /// The link numbers beside the loads.
    pub links: Vec<i64>,
}

/// A question asked of a sheet's figures, of the row or link at a place, counted
/// from 0, where it is about one. A no is what is found.
pub type Question = fn(&Sheet, usize) -> bool;

/// The reasons that a row has in a table too, and the questions behind the
/// reasons 8 to 14; 11 has two.
#[derive(Clone, Copy)]
pub struct Questions {
    pub rows: &'static [RowReason],
    pub sum: Question,
    pub way: Question,
    pub cut: Question,
    pub count: Question,
    pub link: Question,
    pub size: Question,
    pub best: Question,
    pub bound: Question,
}

pub const QUESTIONS: Questions = Questions {
    rows: &ROW_REASONS,
    sum,
    way,
    cut,
    count,
    link,
    size,
    best,
    bound,
};

/// 8: front + back is not 2 x amount.
fn sum(sheet: &Sheet, at: usize) -> bool {
    let (row, sent) = row_at(sheet, at);
    sent.front + sent.back == 2 * row.amount
}

/// 9: direction of an unsplit row differs from rule D. A split row may go
/// either way.
fn way(sheet: &Sheet, at: usize) -> bool {
    let (_, sent) = row_at(sheet, at);
    let due = if sent.back == 0 { Way::F } else { Way::B };
    rules::is_split(&sent) || sheet.plan.ways[at] == due
}

pub fn row_at(sheet: &Sheet, at: usize) -> (table::Row, Sent) {
    (sheet.table.rows[at], sheet.plan.sent[at])
}

/// 10: not 1 <= g < h <= n, or across number false.
fn cut(sheet: &Sheet, _: usize) -> bool {
    let Cut { g, h, across } = sheet.plan.cut;
    let on_ring = 1 <= g && g < h && h <= sheet.table.n;
    on_ring && across == rules::across(&sheet.table.rows, g, h)
}

/// 11: a count of loads other than n.
fn count(sheet: &Sheet, _: usize) -> bool {
    sheet.links.len() as i64 == sheet.table.n
}

/// 11: link out of order, or either load false.
fn link(sheet: &Sheet, at: usize) -> bool {
    let (rows, plan) = (&sheet.table.rows, &sheet.plan);
    let due = at as i64 + 1;
    sheet.links[at] == due
        && plan.split[at] == rules::split_load(rows, &plan.sent, due)
        && plan.unsplit[at] == rules::unsplit_load(rows, &plan.ways, due)
}

/// 12: unsplit peak or size false.
fn size(sheet: &Sheet, _: usize) -> bool {
    let peak = rules::peak(&sheet.plan.unsplit);
    sheet.plan.peak == peak && sheet.plan.size == rules::line_size(&sheet.table, peak)
}

/// 13: split peak (halves) is not the across number. It is the across number
/// of the cut that the sheet names, whatever our own search would find.
fn best(sheet: &Sheet, _: usize) -> bool {
    rules::peak(&sheet.plan.split) == sheet.plan.cut.across
}

/// 14: twice the unsplit peak is at most the split peak plus 3D.
fn bound(sheet: &Sheet, _: usize) -> bool {
    let largest = rules::largest_split(&sheet.table.rows, &sheet.plan.sent);
    2 * sheet.plan.peak <= rules::peak(&sheet.plan.split) + 3 * largest
}

/// What judging finds: the reason, and the place of the row or the link, counted
/// from 1, or 0. Accepted is both 0.
#[repr(C)]
#[derive(Clone, Copy, PartialEq, Eq, Default, Debug)]
pub struct Finding {
    pub reason: u32,
    pub place: u32,
}

pub fn found<T>(reason: u32, place: usize) -> Result<T, Finding> {
    let place = place as u32;
    Err(Finding { reason, place })
}

/// What is found first against a sheet's values.
pub fn judge(sheet: &Sheet) -> Result<(), Finding> {
    judge_asking(sheet, &QUESTIONS)
}

/// The ring, then row by row, then the cut, the links, the last line, and the
/// sheet as a whole.
pub fn judge_asking(sheet: &Sheet, questions: &Questions) -> Result<(), Finding> {
    judge_ring(sheet)?;
    judge_rows(sheet, questions)?;
    ask(sheet, questions.cut, 10)?;
    ask(sheet, questions.count, 11)?;
    for at in 0..sheet.links.len() {
        ask_at(sheet, questions.link, at, 11)?;
    }
    ask(sheet, questions.size, 12)?;
    ask(sheet, questions.best, 13)?;
    ask(sheet, questions.bound, 14)
}

/// 3, then 20.
pub fn judge_ring(sheet: &Sheet) -> Result<(), Finding> {
    if !table::known_size(sheet.table.n) {
        return found(3, 0);
    }
    if !table::known_fibres(sheet.table.fibres) {
        return found(20, 0);
    }
    Ok(())
}

/// Of each row what a row of a table is refused for, then 8, then 9.
pub fn judge_rows(sheet: &Sheet, questions: &Questions) -> Result<(), Finding> {
    let mut above = Table {
        rows: Vec::new(),
        ..sheet.table
    };
    for (at, row) in sheet.table.rows.iter().enumerate() {
        if let Some(reason) =
            table::reason_of_row(&[row.first, row.second, row.amount], &above, questions.rows)
        {
            return found(reason, at + 1);
        }
        ask_at(sheet, questions.sum, at, 8)?;
        ask_at(sheet, questions.way, at, 9)?;
        above.rows.push(*row);
    }
    Ok(())
}

/// Of the row or link at a place, which is named.
fn ask_at(sheet: &Sheet, question: Question, at: usize, reason: u32) -> Result<(), Finding> {
    if question(sheet, at) {
        return Ok(());
    }
    found(reason, at + 1)
}

/// Of the sheet, which names no place.
fn ask(sheet: &Sheet, question: Question, reason: u32) -> Result<(), Finding> {
    if question(sheet, 0) {
        return Ok(());
    }
    found(reason, 0)
}

/// The line that a finding speaks of: with m rows and n links the C line is line
/// m + 2 and the Z line m + n + 3; 13 and 14 have none. All but these judge the line
/// as a whole.
pub fn on_line(sheet: &Sheet, finding: Finding) -> Refusal {
    let Finding { reason, place } = finding;
    let (rows, links) = (sheet.table.rows.len() as u32, sheet.links.len() as u32);
    let line = match reason {
        13 | 14 => 0,
        12 => rows + links + 3,
        10 | 11 => rows + 2 + place,
        _ => place + 1,
    };
    let byte = line.min(1);
    Refusal { reason, line, byte }
}

/// The sheet's values, or the refusal.
pub fn read(text: &[u8]) -> Result<Sheet, Refusal> {
    read_asking(text, &QUESTIONS)
}

/// Reading, then judging what was read.
pub fn read_asking(text: &[u8], questions: &Questions) -> Result<Sheet, Refusal> {
    let sheet = read_values(text, questions.rows)?;
    match judge_asking(&sheet, questions) {
        Ok(()) => Ok(sheet),
        Err(finding) => Err(on_line(&sheet, finding)),
    }
}

/// What all lines say. No figure is judged.
pub fn read_values(text: &[u8], rows: &[RowReason]) -> Result<Sheet, Refusal> {
    read_so_far(text, rows).1
}

/// What the lines above a refusal say, or all of them; and the refusal, or the same
/// values.
pub fn read_so_far(text: &[u8], rows: &[RowReason]) -> (Sheet, Result<Sheet, Refusal>) {
    let mut reader = Reader {
        lines: table::lines(text),
        read: 0,
        sheet: empty(),
    };
    let outcome = table::read_length(text).and_then(|()| reader.all(rows));
    let sheet = reader.sheet;
    let values = outcome.map(|()| sheet.clone());
    (sheet, values)
}

/// Nothing read yet.
fn empty() -> Sheet {
    let (g, h, across) = (0, 0, 0);
    Sheet {
        table: Table {
            n: 0,
            fibres: 0,
            family: Family::Sonet,
            rows: Vec::new(),
        },
        plan: Plan {
            cut: Cut { g, h, across },
            sent: Vec::new(),
            ways: Vec::new(),
            split: Vec::new(),
            unsplit: Vec::new(),
            peak: 0,
            size: 0,
        },
        links: Vec::new(),
    }
}

/// The lines of a sheet, how many have been read, and what they said.
struct Reader<'a> {
    lines: Vec<Line<'a>>,
    read: usize,
    sheet: Sheet,
}

impl<'a> Reader<'a> {
    /// The next line and its number. A missing line is the one after the last;
    /// a last line without LF has been refused before this asks for another.
    fn next(&mut self) -> Result<(Line<'a>, u32), Refusal> {
        self.read += 1;
        let number = self.read as u32;
        match self.lines.get(self.read - 1) {
            Some(line) => Ok((*line, number)),
            None => refuse(2, number, 1),
        }
    }

    /// The numbers of the next line, which must have this shape. One of the others is
    /// due there too, if there are any.
    fn numbers(
        &mut self,
        letter: &'static [u8],
        count: usize,
        others: &[Shape],
    ) -> Result<Vec<i64>, Refusal> {
        let (line, number) = self.next()?;
        match table::numbers(&line, letter, count) {
            Some(numbers) => Ok(numbers),
            None => {
                let due = [&[shape::lettered(letter, count)], others].concat();
                misshapen(&line, number, &due)
            }
        }
    }

    /// Reason 1 has been tried. Lines go in order.
    fn all(&mut self, rows: &[RowReason]) -> Result<(), Refusal> {
        self.ring()?;
        while self.row_is_next() {
            self.row(rows)?;
        }
        self.cut()?;
        for _ in 0..self.sheet.table.n {
            self.link()?;
        }
        self.last()?;
        self.nothing_left()
    }

    /// `R n fibres`, with M or without.
    fn ring(&mut self) -> Result<(), Refusal> {
        let (line, _) = self.next()?;
        self.sheet.table = table::read_ring(&line)?;
        Ok(())
    }

    /// Rows go on for as long as lines begin with D. Whatever else begins a
    /// line, it stands where the C line is due.
    fn row_is_next(&self) -> bool {
        let next = self.lines.get(self.read);
        next.is_some_and(|line| line.bytes.split(|byte| *byte == b'\t').next() == Some(b"D"))
    }

    /// `D i j amount front back F-or-B`.
    fn row(&mut self, rows: &[RowReason]) -> Result<(), Refusal> {
        let (line, number) = self.next()?;
        let Some((numbers, way)) = row_fields(&line) else {
            let either = [shape::row_of_sheet(), shape::lettered(b"C", 3)];
            return misshapen(&line, number, &either);
        };
        let row = table::judge_row(&line, &numbers, number, &self.sheet.table, rows)?;
        let (front, back) = (numbers[3], numbers[4]);
        self.sheet.table.rows.push(row);
        self.sheet.plan.sent.push(Sent { front, back });
        self.sheet.plan.ways.push(way);
        Ok(())
    }

    /// `C g h across`.
    fn cut(&mut self) -> Result<(), Refusal> {
        // A D line may stand there as well.
        let numbers = self.numbers(b"C", 3, &[shape::row_of_sheet()])?;
        let (g, h, across) = (numbers[0], numbers[1], numbers[2]);
        self.sheet.plan.cut = Cut { g, h, across };
        Ok(())
    }

    /// `L link split-load unsplit-load`.
    fn link(&mut self) -> Result<(), Refusal> {
        let numbers = self.numbers(b"L", 3, &[])?;
        self.sheet.links.push(numbers[0]);
        self.sheet.plan.split.push(numbers[1]);
        self.sheet.plan.unsplit.push(numbers[2]);
        Ok(())
    }

    /// `Z unsplit-peak size`.
    fn last(&mut self) -> Result<(), Refusal> {
        let numbers = self.numbers(b"Z", 2, &[])?;
        self.sheet.plan.peak = numbers[0];
        self.sheet.plan.size = numbers[1];
        Ok(())
    }

    /// A line after Z is left over, whatever it says.
    fn nothing_left(&self) -> Result<(), Refusal> {
        if self.read < self.lines.len() {
            return refuse(2, self.read as u32 + 1, 1);
        }
        Ok(())
    }
}

/// The five numbers of a row and its way: the last field is F or B, what stands
/// before it is a line of numbers.
fn row_fields(line: &Line) -> Option<(Vec<i64>, Way)> {
    let front = line.bytes.strip_suffix(b"\tF").map(|rest| (rest, Way::F));
    let back = line.bytes.strip_suffix(b"\tB").map(|rest| (rest, Way::B));
    let (bytes, way) = front.or(back)?;
    let ended = line.ended;
    let numbers = table::numbers(&Line { bytes, ended }, b"D", 5)?;
    Some((numbers, way))
}

/// The first pair of split rows that are parallel, as their two places among
/// all rows counted from 1, in rule C's order, stopping there; or none.
pub fn first_parallel(sheet: &Sheet) -> Option<(usize, usize)> {
    let (rows, sent) = (&sheet.table.rows, &sheet.plan.sent);
    for first in 0..rows.len() {
        for second in first + 1..rows.len() {
            let both_split = rules::is_split(&sent[first]) && rules::is_split(&sent[second]);
            if both_split && !rules::cross(&rows[first], &rows[second]) {
                return Some((first + 1, second + 1));
            }
        }
    }
    None
}
