//! Faulty stand-ins for the library, to show that the comparison catches them.
//! Each is the twin with one fault.

use crate::byte_faults::{Pointed, BYTE_FAULTS};
use crate::check::{self, Finding, Question, Questions, Sheet, QUESTIONS};
use crate::checking_faults::*;
use crate::choice;
use crate::choice_faults::{CHOICE_FAULTS, CHOICE_SAME};
use crate::crossing::{self, CrossingReply};
use crate::crossing_faults::{CROSSING_FAULTS, CROSSING_SAME};
use crate::family_faults::FAMILY_FAULTS;
use crate::foreign::cuts;
use crate::judging_faults::JUDGING_FAULTS;
use crate::least::{self, LeastReply};
use crate::least_faults::{LEAST_FAULTS, LEAST_SAME};
use crate::limits::{ROWS, TEXT};
use crate::lowered;
use crate::lowered_faults::{LOWERED_FAULTS, LOWERED_SAME};
use crate::matrix::{self, Matrix};
use crate::matrix_faults::{self, MATRIX_FAULTS};
use crate::report;
use crate::report_faults::{REPORT_FAULTS, REPORT_SAME};
use crate::row_faults::*;
use crate::rules::{self, Cut, Plan, Sent, Way};
use crate::sheet;
use crate::table::{self, refuse, Refusal, Row, RowReason, Table};
use crate::text_faults::*;
use crate::turning_faults::{TURNING_FAULTS, TURNING_SAME};
use crate::turns::{self, Sentences, TurnReply, SENTENCES};
use crate::twin::{self, Answer, Call, Reply, Said};
use crate::values::{self, Values};
use crate::working::{Ask, Told};
use crate::working_faults::{BY_H, WORKING_FAULTS};
use crate::working_stand_in::{stand_in, Habits, SOUND};
use std::ops::Range;

pub struct Mutant {
    pub name: &'static str,
    how: How,
}

/// Where the fault lies.
enum How {
    Plan(fn(&Table) -> Plan),
    Read(fn(&[u8]) -> Result<Table, Refusal>),
    Rows(&'static [RowReason]),
    Write(fn(&Answer, &mut [u8], Range<usize>) -> Reply),
    Rewrite(fn(Table) -> Table),
    Check(Questions),
    ReadSheet(fn(&[u8]) -> Result<Sheet, Refusal>),
    Parallel(fn(&Sheet) -> Option<(usize, usize)>),
    RewriteSheet(fn(Sheet) -> Sheet),
    Say(fn(&[u8], Said) -> Said),
    ReadMatrix(fn(&[u8]) -> Result<Matrix, Refusal>),
    Told(fn(&[u8], u32) -> Result<Matrix, Refusal>),
    /// What is heard of the fibres and the family that a matrix is read with.
    Hear(fn(u32, u32) -> (u32, u32)),
    Pairs(fn(&Matrix) -> Vec<Row>),
    Sums(fn(&[u8]) -> Result<Matrix, Refusal>),
    Square(fn(&Matrix) -> Vec<u8>),
    /// The byte of a refusal.
    Point(fn(&Pointed) -> u32),
    /// What is found against values.
    Judge(fn(&Values) -> Finding),
    Working(Habits),
    /// Another reading of a sentence of one turn at a time.
    Turn(Sentences),
    /// Another reply to it, or other ways.
    Ways(fn(TurnReply, &mut [u8]) -> TurnReply),
    /// Another reading of a sentence of the best choice.
    Choose(choice::Sentences),
    /// Another reading of a sentence of lowered rooms.
    Lower(lowered::Sentences),
    /// Another reading of a sentence of whether circuits cross.
    Cross(crossing::Sentences),
    /// Another reply to that question.
    Ask(fn(CrossingReply) -> CrossingReply),
    /// Another reading of a sentence of the least of five rules.
    Least(least::Sentences),
    /// Another reply to it, which may look at the text, or other ways.
    LeastWays(LeastReplying),
    /// Another reading of a sentence of a report.
    Report(report::Sentences),
    /// Another reply to one call, which may look at the text.
    Reply(Call, Replying),
}

/// The reply to a text in the place of the twin's.
pub type LeastReplying = fn(&[u8], LeastReply, &mut [u8]) -> LeastReply;

/// The reply to a text and to what the twin answers of it.
pub type Replying = fn(&[u8], &Answer, &mut [u8]) -> Reply;

impl Mutant {
    pub fn call(&self, call: Call, text: &[u8], area: &mut [u8], lent: Range<usize>) -> Said {
        let answer = match call {
            Call::Route | Call::Rewrite => self.answer_table(call, text),
            Call::RouteBest => self.answer_best(text),
            Call::RouteLowered | Call::RouteLoweredBest => self.answer_lowered(call, text),
            Call::ReadMatrix(fibres, family) => self.answer_matrix(text, fibres, family),
            Call::WriteMatrix => self.answer_sums(text),
            Call::Report => self.answer_report(text),
            _ => self.answer_sheet(call, text),
        };
        let answer = answer.map_err(|refusal| self.point(call, text, refusal));
        match self.how {
            How::Write(write) if call.writes() => Said::Reply(write(&answer, area, lent)),
            How::Reply(of, reply) if call == of => {
                Said::Reply(reply(text, &answer, &mut area[lent]))
            }
            How::Say(change) if !call.writes() => {
                change(text, twin::say(call, &answer, &mut area[lent]))
            }
            _ => twin::say(call, &answer, &mut area[lent]),
        }
    }

    /// One call of the working table.
    pub fn work(&self, ask: &Ask, words: &mut [u32], buffer: &mut [u8]) -> Told {
        match &self.how {
            How::Working(habits) => stand_in(habits, ask, words, buffer),
            _ => stand_in(&SOUND, ask, words, buffer),
        }
    }

    /// What is found against values.
    pub fn judge(&self, values: &Values) -> Finding {
        match &self.how {
            How::Judge(judge) => judge(values),
            _ => values::judge(values),
        }
    }

    /// The circuits of a table sent one turn at a time.
    pub fn turn(&self, text: &[u8], ways: &mut [u8]) -> TurnReply {
        let sentences = match &self.how {
            How::Turn(sentences) => sentences,
            _ => &SENTENCES,
        };
        let table = self.read_table(text);
        let answer = table.map(|table| turns::answer_read(&table, sentences));
        let reply = turns::reply(&answer, ways);
        match self.how {
            How::Ways(change) => change(reply, ways),
            _ => reply,
        }
    }

    /// Whether the circuits of a table all cross each other.
    pub fn crossing(&self, text: &[u8]) -> CrossingReply {
        let sentences = match &self.how {
            How::Cross(sentences) => sentences,
            _ => &crossing::SENTENCES,
        };
        let table = self.read_table(text);
        let answer = table.map(|table| crossing::answer_read(&table, sentences));
        let reply = crossing::reply(&answer);
        match self.how {
            How::Ask(change) => change(reply),
            _ => reply,
        }
    }

    /// The least of five rules of a table.
    pub fn least(&self, text: &[u8], ways: &mut [u8]) -> LeastReply {
        let sentences = match &self.how {
            How::Least(sentences) => sentences,
            _ => &least::SENTENCES,
        };
        let table = self.read_table(text);
        let answer = table.map(|table| least::answer_read(&table, sentences));
        let reply = least::reply(&answer, ways);
        match self.how {
            How::LeastWays(change) => change(text, reply, ways),
            _ => reply,
        }
    }

    /// The refusal with the byte that the fault gives it.
    fn point(&self, call: Call, text: &[u8], refusal: Refusal) -> Refusal {
        let How::Point(point) = self.how else {
            return refusal;
        };
        let pointed = Pointed {
            call,
            text,
            refusal,
        };
        let byte = point(&pointed);
        Refusal { byte, ..refusal }
    }

    /// Whether the fault lies in the byte of a refusal.
    pub fn of_bytes(&self) -> bool {
        BYTE_FAULTS.iter().any(|fault| std::ptr::eq(fault, self))
    }

    /// Whether the fault lies in what is made of the families.
    pub fn of_families(&self) -> bool {
        FAMILY_FAULTS.iter().any(|fault| std::ptr::eq(fault, self))
    }

    /// Whether the fault lies in judging values.
    pub fn of_judging(&self) -> bool {
        matches!(self.how, How::Judge(_))
    }

    /// Whether the fault lies in sending circuits one turn at a time.
    pub fn of_turning(&self) -> bool {
        matches!(self.how, How::Turn(_) | How::Ways(_))
    }

    /// Whether the fault lies in whether circuits cross.
    pub fn of_crossing(&self) -> bool {
        matches!(self.how, How::Cross(_) | How::Ask(_))
    }

    /// Whether the fault lies in the best choice.
    pub fn of_choosing(&self) -> bool {
        matches!(self.how, How::Choose(_) | How::Reply(Call::RouteBest, _))
    }

    /// Whether the fault lies in a report.
    pub fn of_reporting(&self) -> bool {
        matches!(self.how, How::Report(_) | How::Reply(Call::Report, _))
    }

    /// Whether the fault lies in the least of five rules.
    pub fn of_least(&self) -> bool {
        matches!(self.how, How::Least(_) | How::LeastWays(_))
    }

    /// Whether the fault lies in lowered rooms.
    pub fn of_lowering(&self) -> bool {
        matches!(self.how, How::Lower(_))
    }

    /// Whether the fault lies in the working table.
    pub fn of_working(&self) -> bool {
        matches!(self.how, How::Working(_))
    }

    fn read_table(&self, text: &[u8]) -> Result<Table, Refusal> {
        match self.how {
            How::Read(read) => read(text),
            How::Rows(reasons) => table::read_judging(text, reasons),
            _ => table::read(text),
        }
    }

    fn answer_table(&self, call: Call, text: &[u8]) -> Answer {
        let table = self.read_table(text)?;
        Ok(twin::written(match (call, &self.how) {
            (Call::Route, How::Plan(plan)) => sheet::sheet_text(&table, &plan(&table)),
            (Call::Route, _) => sheet::sheet_text(&table, &rules::plan(&table)),
            (_, How::Rewrite(change)) => sheet::table_text(&change(table)),
            _ => sheet::table_text(&table),
        }))
    }

    fn answer_best(&self, text: &[u8]) -> Answer {
        let table = self.read_table(text)?;
        let plan = match &self.how {
            How::Choose(sentences) => choice::plan_read(&table, sentences)?,
            _ => choice::plan(&table)?,
        };
        Ok(twin::written(sheet::sheet_text(&table, &plan)))
    }

    fn answer_lowered(&self, call: Call, text: &[u8]) -> Answer {
        let table = self.read_table(text)?;
        let how = match &self.how {
            How::Lower(sentences) => sentences,
            _ => &lowered::SENTENCES,
        };
        let plan = match call {
            Call::RouteLowered => lowered::plan_read(&table, how),
            _ => lowered::best_plan_read(&table, how)?,
        };
        Ok(twin::written(sheet::sheet_text(&table, &plan)))
    }

    fn answer_report(&self, text: &[u8]) -> Answer {
        match &self.how {
            How::Report(sentences) => report::answer_read(text, sentences),
            _ => report::answer(text),
        }
    }

    fn answer_sheet(&self, call: Call, text: &[u8]) -> Answer {
        let sheet = match &self.how {
            How::Check(questions) => check::read_asking(text, questions)?,
            How::ReadSheet(read) => read(text)?,
            _ => check::read(text)?,
        };
        Ok(match (call, &self.how) {
            (Call::Parallel, How::Parallel(parallel)) => twin::found(parallel(&sheet)),
            (Call::Parallel, _) => twin::found(check::first_parallel(&sheet)),
            (Call::RewriteSheet, How::RewriteSheet(change)) => {
                let sheet = change(sheet);
                twin::written(sheet::sheet_text(&sheet.table, &sheet.plan))
            }
            (Call::RewriteSheet, _) => twin::written(sheet::sheet_text(&sheet.table, &sheet.plan)),
            _ => twin::Granted::default(),
        })
    }

    fn answer_matrix(&self, text: &[u8], fibres: u32, family: u32) -> Answer {
        let told = table::known_fibres(i64::from(fibres));
        let matrix = match self.how {
            How::Told(read) => read(text, fibres)?,
            How::ReadMatrix(read) if told => read(text)?,
            _ => matrix::read_told(text, fibres)?,
        };
        let (fibres, family) = match self.how {
            How::Hear(hear) => hear(fibres, family),
            _ => (fibres, family),
        };
        let mut table = matrix::table_of(&matrix, fibres, family);
        if let How::Pairs(pairs) = self.how {
            table.rows = pairs(&matrix);
        }
        Ok(twin::written(sheet::table_text(&table)))
    }

    fn answer_sums(&self, text: &[u8]) -> Answer {
        let matrix = match self.how {
            How::Sums(sums) => sums(text)?,
            _ => matrix::add_up(&self.read_table(text)?)?,
        };
        Ok(twin::written(match self.how {
            How::Square(square) => square(&matrix),
            _ => matrix::matrix_text(&matrix),
        }))
    }
}

/// All faults, those of a matrix behind the others, then those of the byte, those of
/// judging values, those of one turn at a time, those of the best choice, those of lowered
/// rooms, those of whether circuits cross, those of the least of five rules, those of
/// reports, those of the working table, and those of the families last.
pub fn faults() -> Vec<&'static Mutant> {
    let texts = FAULTS.iter().chain(&MATRIX_FAULTS).chain(&BYTE_FAULTS);
    texts
        .chain(&JUDGING_FAULTS)
        .chain(&TURNING_FAULTS)
        .chain(&CHOICE_FAULTS)
        .chain(&LOWERED_FAULTS)
        .chain(&CROSSING_FAULTS)
        .chain(&LEAST_FAULTS)
        .chain(&REPORT_FAULTS)
        .chain(&WORKING_FAULTS)
        .chain(&FAMILY_FAULTS)
        .collect()
}

/// All changes that come to the same, those of one turn at a time, of the best choice, of
/// lowered rooms, of whether circuits cross, of the least of five rules and of reports last.
pub fn same() -> Vec<&'static Mutant> {
    let same = SAME.iter().chain(&TURNING_SAME);
    let same = same.chain(&CHOICE_SAME).chain(&LOWERED_SAME);
    let same = same.chain(&CROSSING_SAME).chain(&LEAST_SAME);
    same.chain(&REPORT_SAME).collect()
}

pub const fn judging(name: &'static str, judge: fn(&Values) -> Finding) -> Mutant {
    let how = How::Judge(judge);
    Mutant { name, how }
}

pub const fn turning(name: &'static str, sentences: Sentences) -> Mutant {
    let how = How::Turn(sentences);
    Mutant { name, how }
}

pub const fn answering(
    name: &'static str,
    change: fn(TurnReply, &mut [u8]) -> TurnReply,
) -> Mutant {
    let how = How::Ways(change);
    Mutant { name, how }
}

pub const fn crossing(name: &'static str, sentences: crossing::Sentences) -> Mutant {
    let how = How::Cross(sentences);
    Mutant { name, how }
}

pub const fn asking(name: &'static str, change: fn(CrossingReply) -> CrossingReply) -> Mutant {
    let how = How::Ask(change);
    Mutant { name, how }
}

pub const fn choosing(name: &'static str, sentences: choice::Sentences) -> Mutant {
    let how = How::Choose(sentences);
    Mutant { name, how }
}

pub const fn replying(name: &'static str, call: Call, reply: Replying) -> Mutant {
    let how = How::Reply(call, reply);
    Mutant { name, how }
}

pub const fn reporting(name: &'static str, sentences: report::Sentences) -> Mutant {
    let how = How::Report(sentences);
    Mutant { name, how }
}

pub const fn lowering(name: &'static str, sentences: lowered::Sentences) -> Mutant {
    let how = How::Lower(sentences);
    Mutant { name, how }
}

pub const fn least(name: &'static str, sentences: least::Sentences) -> Mutant {
    let how = How::Least(sentences);
    Mutant { name, how }
}

pub const fn saying(name: &'static str, change: LeastReplying) -> Mutant {
    let how = How::LeastWays(change);
    Mutant { name, how }
}

pub const fn working(name: &'static str, habits: Habits) -> Mutant {
    let how = How::Working(habits);
    Mutant { name, how }
}

pub const fn pointing(name: &'static str, point: fn(&Pointed) -> u32) -> Mutant {
    let how = How::Point(point);
    Mutant { name, how }
}

pub const fn plan(name: &'static str, plan: fn(&Table) -> Plan) -> Mutant {
    let how = How::Plan(plan);
    Mutant { name, how }
}

pub const fn read(name: &'static str, read: fn(&[u8]) -> Result<Table, Refusal>) -> Mutant {
    let how = How::Read(read);
    Mutant { name, how }
}

const fn rows(name: &'static str, reasons: &'static [RowReason]) -> Mutant {
    let how = How::Rows(reasons);
    Mutant { name, how }
}

pub const fn write(
    name: &'static str,
    write: fn(&Answer, &mut [u8], Range<usize>) -> Reply,
) -> Mutant {
    let how = How::Write(write);
    Mutant { name, how }
}

pub const fn rewrite(name: &'static str, change: fn(Table) -> Table) -> Mutant {
    let how = How::Rewrite(change);
    Mutant { name, how }
}

const fn check(name: &'static str, questions: Questions) -> Mutant {
    let how = How::Check(questions);
    Mutant { name, how }
}

const fn sheet_rows(name: &'static str, rows: &'static [RowReason]) -> Mutant {
    let questions = Questions { rows, ..QUESTIONS };
    check(name, questions)
}

const fn on_sum(name: &'static str, sum: Question) -> Mutant {
    let questions = Questions { sum, ..QUESTIONS };
    check(name, questions)
}

const fn on_way(name: &'static str, way: Question) -> Mutant {
    let questions = Questions { way, ..QUESTIONS };
    check(name, questions)
}

const fn on_cut(name: &'static str, cut: Question) -> Mutant {
    let questions = Questions { cut, ..QUESTIONS };
    check(name, questions)
}

const fn on_link(name: &'static str, link: Question) -> Mutant {
    let questions = Questions { link, ..QUESTIONS };
    check(name, questions)
}

pub const fn on_size(name: &'static str, size: Question) -> Mutant {
    let questions = Questions { size, ..QUESTIONS };
    check(name, questions)
}

const fn on_best(name: &'static str, best: Question) -> Mutant {
    let questions = Questions { best, ..QUESTIONS };
    check(name, questions)
}

const fn on_bound(name: &'static str, bound: Question) -> Mutant {
    let questions = Questions { bound, ..QUESTIONS };
    check(name, questions)
}

pub const fn read_sheet(name: &'static str, read: fn(&[u8]) -> Result<Sheet, Refusal>) -> Mutant {
    let how = How::ReadSheet(read);
    Mutant { name, how }
}

const fn parallel(name: &'static str, parallel: fn(&Sheet) -> Option<(usize, usize)>) -> Mutant {
    let how = How::Parallel(parallel);
    Mutant { name, how }
}

pub const fn rewrite_sheet(name: &'static str, change: fn(Sheet) -> Sheet) -> Mutant {
    let how = How::RewriteSheet(change);
    Mutant { name, how }
}

pub const fn say(name: &'static str, change: fn(&[u8], Said) -> Said) -> Mutant {
    let how = How::Say(change);
    Mutant { name, how }
}

pub const fn read_matrix(name: &'static str, read: fn(&[u8]) -> Result<Matrix, Refusal>) -> Mutant {
    let how = How::ReadMatrix(read);
    Mutant { name, how }
}

pub const fn told(name: &'static str, read: fn(&[u8], u32) -> Result<Matrix, Refusal>) -> Mutant {
    let how = How::Told(read);
    Mutant { name, how }
}

pub const fn hears(name: &'static str, hear: fn(u32, u32) -> (u32, u32)) -> Mutant {
    let how = How::Hear(hear);
    Mutant { name, how }
}

pub const fn pairs(name: &'static str, pairs: fn(&Matrix) -> Vec<Row>) -> Mutant {
    let how = How::Pairs(pairs);
    Mutant { name, how }
}

pub const fn sums(name: &'static str, sums: fn(&[u8]) -> Result<Matrix, Refusal>) -> Mutant {
    let how = How::Sums(sums);
    Mutant { name, how }
}

pub const fn square(name: &'static str, square: fn(&Matrix) -> Vec<u8>) -> Mutant {
    let how = How::Square(square);
    Mutant { name, how }
}

/// Faults that change some sheet or reply: each must be caught.
static FAULTS: [Mutant; 154] = [
    write("one byte after the text changed", after_text),
    write("one byte after the buffer changed", after_buffer),
    write("one byte before the buffer changed", before_buffer),
    write("a refusal touches the buffer", refusal_touches),
    write("15 writes what fits", short_writes),
    write("15 at exactly the need", short_at_need),
    write("15 before the table reasons", short_first),
    write("15 before the 16 of a matrix", short_before_many),
    write("length of a refusal is the need", refusal_length),
    write("length one more", length_more),
    write("line off by one", line_off),
    plan("A: tie to the later pair", a_later),
    plan("A: link n left out", a_without_last),
    plan("B: g < h only", b_below),
    plan("B: g = h only", b_equal),
    plan("B: across number of all rows", b_all),
    plan("B: across number once, not twice", b_once),
    plan("B: whole units only", b_units),
    plan("B: M made even", b_even),
    plan("B: back takes no room", b_back),
    plan("B: circuits of one pair by amount", b_by_amount),
    plan("C: skipped", c_skipped),
    plan("C: fronts inside skipped", c_inside),
    plan("C: split as at the start", c_at_start),
    plan("C: from the last pair to the first", c_backwards),
    plan("C: a shared node crosses", c_shared),
    plan("C: outer and inner changed over", c_changed_over),
    plan("D: over all rows", d_all),
    plan("D: over rows split before rule C", d_before),
    plan("D: S clamped at 0", d_clamped),
    plan("D: S never falls", d_rising),
    plan("D: S + back < D", d_strict),
    plan("D: twice D", d_twice),
    plan("D: amount 0 goes B", d_zero),
    plan("D: the best choice in its place", d_best),
    plan("Z: size above the peak", z_above),
    plan("Z: the largest size for every larger peak", z_largest),
    plan("Z: once the peak on two fibres", z_once),
    plan("Z: twice the peak on four fibres", z_twice),
    read("reading: 20 before 3", |text| {
        early(text, table::read(text))
    }),
    read("reading: 20 never", twenty_never),
    read("reading: 20 after all lines", twenty_last),
    read("reading: the R line without fibres taken", old_ring),
    read_sheet("checking: the R line without fibres taken", |text| {
        check::read(&with_fibres(text))
    }),
    read_sheet("checking: 20 before 3", |text| {
        early(text, check::read(text))
    }),
    read_sheet("checking: 20 never", sheet_twenty_never),
    read_sheet("checking: 20 after all lines", |text| {
        sheet_twenty_never(text)?;
        check::read(text)
    }),
    on_size("12: once the peak on two fibres", size_once),
    on_size("12: twice the peak on four fibres", size_twice),
    rewrite("rewriting: four fibres for two", four_fibres),
    rewrite_sheet("rewriting: a sheet's four fibres for two", |mut sheet| {
        sheet.table.fibres = 4;
        sheet
    }),
    read("reading: leading zeros", |text| {
        table::read(&without_leading_zeros(text))
    }),
    read("reading: 9 digits", |text| {
        table::read(&without_ninth_digit(text))
    }),
    read("reading: final LF not asked for", |text| {
        table::read(&with_final_lf(text))
    }),
    read("reading: CR LF taken for LF", |text| {
        table::read(&without_cr(text))
    }),
    read("reading: 32,768 bytes refused", |text| {
        table::read(&past_limit(text))
    }),
    read("reading: 32,769 bytes read", |text| {
        table::read(&within_limit(text))
    }),
    read("reading: 64 offices refused", ring_64),
    read("reading: 65 offices taken for 64", ring_65),
    read("reading: 33 offices refused", ring_33),
    read("reading: 8 digits refused", |text| {
        table::read(&without_eight_digits(text))
    }),
    rows("reading: 5 before 4", &FIVE_FIRST),
    rows("reading: 7 before 6", &SEVEN_FIRST),
    rows("reading: 16 before 6", &MANY_EARLY),
    rows("reading: 16 after 7", &MANY_LATE),
    rows("reading: 16 at 1,024 rows already", &MANY_AT_MOST),
    rows("reading: 16 at 497 rows", &MANY_AT_497),
    rows("reading: 16 never", &MANY_NEVER),
    rows("reading: nodes of the row before refused", &NOT_ABOVE),
    rows("reading: a row like the one before refused", &NOT_OTHER),
    rows("reading: 6 by first node alone", &BY_FIRST),
    read("reading: 16 before any row is judged", many_first),
    read("reading: rows beyond 1,024 left out", without_many),
    read("reading: a doubled row taken once", doubled),
    rows("reading: amount 9,999 refused", &MUCH_LOW),
    rows("reading: amount 10,000 taken", &MUCH_HIGH),
    read("reading: 2 in any line first", shape_first),
    rewrite("rewriting: rows of amount 0 left out", without_zeros),
    rewrite("rewriting: circuits of one pair by amount", by_amount),
    read_sheet("checking: says yes to all", yes_to_all),
    read_sheet("checking: refuses all", no_to_all),
    read_sheet("checking: only a sheet equal to ours", only_ours),
    read_sheet("checking: 13 and 14 before the lines", peaks_first),
    read_sheet("checking: 14 before 13", bound_first),
    read_sheet("checking: lines after Z taken", after_z),
    read_sheet("checking: final LF not asked for", |text| {
        check::read(&with_final_lf(text))
    }),
    read_sheet("checking: CR LF taken for LF", |text| {
        check::read(&without_cr(text))
    }),
    read_sheet("checking: 32,769 bytes read", |text| {
        check::read(&within_limit(text))
    }),
    read_sheet("checking: lower case f and b taken", lower_case),
    read_sheet("checking: 2 in any line first", sheet_shape_first),
    read_sheet("checking: a missing line is the last", missing_is_last),
    read_sheet("checking: judging before all lines are read", judged_early),
    read_sheet("checking: a row's place for its line", place_for_line),
    sheet_rows("checking: 5 before 4", &FIVE_FIRST),
    sheet_rows("checking: 7 before 6", &SEVEN_FIRST),
    sheet_rows("checking: 16 before 6", &MANY_EARLY),
    sheet_rows("checking: 16 after 7", &MANY_LATE),
    sheet_rows("checking: 16 at 1,024 rows already", &MANY_AT_MOST),
    sheet_rows("checking: 16 never", &MANY_NEVER),
    sheet_rows("checking: nodes of the row before refused", &NOT_ABOVE),
    sheet_rows("checking: a row like the one before refused", &NOT_OTHER),
    sheet_rows("checking: 6 by first node alone", &BY_FIRST),
    read_sheet("checking: 16 after 8 and 9", many_after_9),
    read_sheet("checking: 16 before any row is judged", sheet_many_first),
    read_sheet("checking: rows beyond 1,024 left out", sheet_without_many),
    say("checking: a yes has the text's length", yes_with_length),
    say("parallel: a refused sheet has its pair", refused_with_pair),
    on_sum("8: sum not compared", yes),
    on_sum("8: sum at most 2d", sum_most),
    on_sum("8: sum in 16 bits", sum_short),
    on_way("9: way not compared", yes),
    on_way("9: amount 0 may go B", way_of_zero),
    on_way("9: split rows as rule D says", way_of_split),
    on_cut("10: across not compared", cut_on_ring),
    on_cut("10: across at most the true one", cut_most),
    on_cut("10: g = h taken", cut_equal),
    on_cut("10: g and h in either order", cut_either),
    on_cut("10: our own cut asked for", cut_ours),
    on_link("11: loads not compared", link_number),
    on_link("11: split loads not compared", link_unsplit),
    on_link("11: unsplit loads not compared", link_split),
    on_link("11: link numbers not compared", link_loads),
    on_link("11: last link not compared", link_but_last),
    on_size("12: peak not compared", size_of_named),
    on_size("12: size not compared", peak_alone),
    on_size("12: size large enough is enough", size_enough),
    on_size("12: the largest size for every larger peak", size_largest),
    on_best("13: not asked", yes),
    on_best("13: our own largest cut, not the sheet's", best_ours),
    check("10, 13: our own largest cut in the sheet's place", OUR_CUT),
    on_best("13: peak above the across number taken", best_least),
    on_best("13: peak of links g and h only", best_at_cut),
    on_bound("14: not asked", yes),
    on_bound("14: 2D", bound_two),
    on_bound("14: 4D", bound_four),
    on_bound("14: strictly below", bound_strict),
    on_bound("14: one half more", bound_loose),
    on_bound("14: D over all rows", bound_all),
    on_bound("14: D the largest half of a split row", bound_half),
    parallel("parallel: the last pair", pair_last),
    parallel("parallel: unsplit rows counted", pair_unsplit),
    parallel("parallel: places from 0", pair_from_0),
    parallel("parallel: places among split rows", pair_among_split),
    parallel("parallel: by second, then first", pair_by_second),
    parallel("parallel: second before first", pair_swapped),
    parallel("parallel: none ever", pair_never),
    parallel("parallel: a shared node crosses", pair_shared),
    parallel("parallel: rows of the same nodes cross", pair_other_nodes),
    parallel("parallel: disjoint fronts only", pair_disjoint),
    parallel("parallel: fronts inside only", pair_inside),
    parallel("parallel: neighbours only", pair_next),
    rewrite_sheet("rewriting: our own cut", with_our_cut),
    rewrite_sheet("rewriting: our own ways", with_our_ways),
    rewrite_sheet("rewriting: our own plan", with_our_plan),
];

/// Other readings that come to the same on every text, so none may differ.
///
/// - Ties: where (g,h) and (g',h') with g < g' < h' < h both have the largest
///   across number, (g,h') has it too, so the smallest g goes with the
///   smallest h.
/// - Disjoint fronts: a row that rule B splits leaves a pair of links of its
///   front with no slack. A later row with both links in its back is then sent
///   wholly to the front, so no two split rows have disjoint fronts. One with
///   both links in its front is sent wholly to the back, so of two split rows
///   one inside the other the outer is the first, and two rows with the same
///   nodes are never both split.
/// - Order: two orders of rule C's pairs that agree on all pairs with a row in
///   common move the same amounts.
/// - 13: each row across the cut sends 2d over g and h together, so the split
///   peak is never below a true across number.
///
/// - A matrix that is accepted is symmetric, so either half says the same.
pub static SAME: [Mutant; 10] = [
    working("working: equal cuts by h, then g", BY_H),
    plan("A: tie to the smallest h, then g", a_by_h),
    plan("C: disjoint fronts skipped", c_disjoint),
    plan("C: fronts that touch taken for crossing", c_touching),
    plan("C: the first taken for the outer", c_first_outer),
    plan("C: of two circuits the later is the outer", c_later_outer),
    plan("C: two circuits taken for crossing", c_other_nodes),
    plan("C: by second, then first", c_by_second),
    on_best("13: peak below the across number taken", best_most),
    pairs(
        "matrix: rows from the lower half",
        matrix_faults::lower_half,
    ),
];

/// The plan of the best choice, wherever few rows are split, so that it is soon found.
fn d_best(table: &Table) -> Plan {
    let left = choice::left(table);
    if choice::split_count(&left) > 8 {
        return rules::plan(table);
    }
    choice::plan(table).unwrap_or_else(|_| rules::plan(table))
}

// Faults of replying.

fn after_text(answer: &Answer, area: &mut [u8], lent: Range<usize>) -> Reply {
    let reply = twin::reply(answer, &mut area[lent.clone()]);
    if reply.reason == 0 && reply.length < lent.len() {
        area[lent.start + reply.length] ^= 1;
    }
    reply
}

fn after_buffer(answer: &Answer, area: &mut [u8], lent: Range<usize>) -> Reply {
    area[lent.end] ^= 1;
    twin::reply(answer, &mut area[lent])
}

fn before_buffer(answer: &Answer, area: &mut [u8], lent: Range<usize>) -> Reply {
    area[lent.start - 1] ^= 1;
    twin::reply(answer, &mut area[lent])
}

fn refusal_touches(answer: &Answer, area: &mut [u8], lent: Range<usize>) -> Reply {
    let reply = twin::reply(answer, &mut area[lent.clone()]);
    if answer.is_err() && !lent.is_empty() {
        area[lent.start] ^= 1;
    }
    reply
}

fn short_writes(answer: &Answer, area: &mut [u8], lent: Range<usize>) -> Reply {
    let reply = twin::reply(answer, &mut area[lent.clone()]);
    if let (Ok(granted), 15) = (answer, reply.reason) {
        let length = lent.len();
        area[lent].copy_from_slice(&granted.text[..length]);
    }
    reply
}

fn short_at_need(answer: &Answer, area: &mut [u8], lent: Range<usize>) -> Reply {
    let need = answer.as_ref().map_or(0, |granted| granted.text.len());
    let shorter = lent.len() == need;
    let end = lent.end - usize::from(shorter && need > 0);
    twin::reply(answer, &mut area[lent.start..end])
}

fn short_first(answer: &Answer, area: &mut [u8], lent: Range<usize>) -> Reply {
    if lent.is_empty() {
        return twin::refused(&twin::NO_ROOM);
    }
    twin::reply(answer, &mut area[lent])
}

/// The refusal without a line is that of a matrix that makes too many rows.
fn short_before_many(answer: &Answer, area: &mut [u8], lent: Range<usize>) -> Reply {
    let many = answer
        .as_ref()
        .is_err_and(|refusal| (refusal.reason, refusal.line) == (16, 0));
    if many && lent.len() < 7 + 13 * ROWS {
        return twin::refused(&twin::NO_ROOM);
    }
    twin::reply(answer, &mut area[lent])
}

fn refusal_length(answer: &Answer, area: &mut [u8], lent: Range<usize>) -> Reply {
    let mut reply = twin::reply(answer, &mut area[lent]);
    reply.length = answer.as_ref().map_or(0, |granted| granted.text.len());
    reply
}

fn length_more(answer: &Answer, area: &mut [u8], lent: Range<usize>) -> Reply {
    let mut reply = twin::reply(answer, &mut area[lent]);
    reply.length += usize::from(reply.reason == 0);
    reply
}

fn line_off(answer: &Answer, area: &mut [u8], lent: Range<usize>) -> Reply {
    let mut reply = twin::reply(answer, &mut area[lent]);
    reply.line += u32::from(reply.line > 0);
    reply
}

// Faults of rule A.

fn from_cut(table: &Table, cut: Cut) -> Plan {
    let mut sent = rules::rule_b(table, cut.across);
    rules::rule_c(&table.rows, &mut sent);
    let ways = rules::rule_d(&table.rows, &sent);
    rules::figures(table, cut, sent, ways)
}

fn a_later(table: &Table) -> Plan {
    let cuts = cuts(table).into_iter();
    let cut = cuts.max_by_key(|cut| cut.across);
    from_cut(table, cut.expect("a cut"))
}

fn a_by_h(table: &Table) -> Plan {
    let cuts = cuts(table).into_iter();
    let cut = cuts.max_by_key(|cut| (cut.across, -cut.h, -cut.g));
    from_cut(table, cut.expect("a cut"))
}

fn a_without_last(table: &Table) -> Plan {
    let cuts = cuts(table).into_iter();
    let inner = cuts.filter(|cut| cut.h < table.n);
    let cut = inner.max_by_key(|cut| (cut.across, -cut.g, -cut.h));
    from_cut(table, cut.unwrap_or(rules::rule_a(table)))
}

// Faults of rule B.

/// Rule B with another way to s, another room, another front, another cost of
/// the back.
struct Sending {
    pairs: fn(i64, i64) -> bool,
    all: bool,
    times: i64,
    room: fn(i64) -> i64,
    front: fn(i64) -> i64,
    back_costs: bool,
}

const SENDING: Sending = Sending {
    pairs: |_, _| true,
    all: false,
    times: 2,
    room: |m| m,
    front: |front| front,
    back_costs: true,
};

impl Sending {
    fn least(&self, rows: &[Row], at: usize, room: &[i64]) -> Option<i64> {
        let row = rows[at];
        let unsent = if self.all { rows } else { &rows[at + 1..] };
        let mut values = Vec::new();
        for g in row.first..row.second {
            for h in (g..row.second).filter(|h| (self.pairs)(g, *h)) {
                let there = rules::across(unsent, g, h);
                values.push(room[g as usize] + room[h as usize] - self.times * there);
            }
        }
        values.into_iter().min()
    }

    fn plan(&self, table: &Table) -> Plan {
        let cut = rules::rule_a(table);
        let mut room = vec![(self.room)(cut.across); table.n as usize + 1];
        let mut sent = Vec::new();
        for (at, row) in table.rows.iter().enumerate() {
            let half = self.least(&table.rows, at, &room).map(|s| s / 2);
            let front = half.map_or(2 * row.amount, |half| half.min(2 * row.amount));
            let front = (self.front)(front);
            let back = 2 * row.amount - front;
            for link in 1..=table.n {
                let over_back = if self.back_costs { back } else { 0 };
                let in_front = rules::front_holds(row, link);
                room[link as usize] -= if in_front { front } else { over_back };
            }
            sent.push(Sent { front, back });
        }
        rules::rule_c(&table.rows, &mut sent);
        let ways = rules::rule_d(&table.rows, &sent);
        rules::figures(table, cut, sent, ways)
    }
}

fn b_below(table: &Table) -> Plan {
    let pairs = |g, h| g < h;
    Sending { pairs, ..SENDING }.plan(table)
}

fn b_equal(table: &Table) -> Plan {
    let pairs = |g, h| g == h;
    Sending { pairs, ..SENDING }.plan(table)
}

fn b_all(table: &Table) -> Plan {
    let all = true;
    Sending { all, ..SENDING }.plan(table)
}

fn b_once(table: &Table) -> Plan {
    let times = 1;
    Sending { times, ..SENDING }.plan(table)
}

fn b_units(table: &Table) -> Plan {
    let front = |front| front - front % 2;
    Sending { front, ..SENDING }.plan(table)
}

fn b_even(table: &Table) -> Plan {
    let room = |m| m + m % 2;
    Sending { room, ..SENDING }.plan(table)
}

fn b_back(table: &Table) -> Plan {
    let back_costs = false;
    let sending = Sending {
        back_costs,
        ..SENDING
    };
    sending.plan(table)
}

fn b_by_amount(table: &Table) -> Plan {
    let mut order: Vec<usize> = (0..table.rows.len()).collect();
    order.sort_by_key(|at| {
        (
            table.rows[*at].first,
            table.rows[*at].second,
            table.rows[*at].amount,
        )
    });
    let rows = order.iter().map(|at| table.rows[*at]).collect();
    let plan = rules::plan(&Table { rows, ..*table });
    let (mut sent, mut ways) = (plan.sent.clone(), plan.ways.clone());
    for (place, at) in order.iter().enumerate() {
        sent[*at] = plan.sent[place];
        ways[*at] = plan.ways[place];
    }
    rules::figures(table, plan.cut, sent, ways)
}

// Faults of rule C.

/// The plan with another rule C.
fn with_c(table: &Table, rule_c: impl Fn(&[Row], &mut [Sent])) -> Plan {
    let cut = rules::rule_a(table);
    let mut sent = rules::rule_b(table, cut.across);
    rule_c(&table.rows, &mut sent);
    let ways = rules::rule_d(&table.rows, &sent);
    rules::figures(table, cut, sent, ways)
}

/// Rule C with another move for two split rows that are parallel.
fn c_moving(rows: &[Row], sent: &mut [Sent], moving: impl Fn(&mut [Sent], usize, usize)) {
    for first in 0..rows.len() {
        for second in first + 1..rows.len() {
            let both = rules::is_split(&sent[first]) && rules::is_split(&sent[second]);
            if both && !rules::cross(&rows[first], &rows[second]) {
                moving(sent, first, second);
            }
        }
    }
}

/// Rule C over those of its pairs that are kept.
fn c_kept(rows: &[Row], sent: &mut [Sent], kept: impl Fn(&Row, &Row) -> bool) {
    c_moving(rows, sent, |sent, first, second| {
        if kept(&rows[first], &rows[second]) {
            rules::move_pair(rows, sent, first, second);
        }
    })
}

fn c_skipped(table: &Table) -> Plan {
    with_c(table, |_, _| ())
}

fn c_disjoint(table: &Table) -> Plan {
    with_c(table, |rows, sent| {
        c_kept(rows, sent, |one, two| !rules::fronts_disjoint(one, two))
    })
}

fn c_inside(table: &Table) -> Plan {
    with_c(table, |rows, sent| {
        c_kept(rows, sent, rules::fronts_disjoint)
    })
}

fn c_by_second(table: &Table) -> Plan {
    with_c(table, |rows, sent| {
        for second in 0..rows.len() {
            for first in 0..second {
                let both = rules::is_split(&sent[first]) && rules::is_split(&sent[second]);
                if both && !rules::cross(&rows[first], &rows[second]) {
                    rules::move_pair(rows, sent, first, second);
                }
            }
        }
    })
}

fn c_backwards(table: &Table) -> Plan {
    with_c(table, |rows, sent| {
        for first in (0..rows.len()).rev() {
            for second in (first + 1..rows.len()).rev() {
                let both = rules::is_split(&sent[first]) && rules::is_split(&sent[second]);
                if both && !rules::cross(&rows[first], &rows[second]) {
                    rules::move_pair(rows, sent, first, second);
                }
            }
        }
    })
}

/// Outer and inner told by their places alone.
fn c_first_outer(table: &Table) -> Plan {
    with_c(table, |rows, sent| c_moving(rows, sent, rules::exchange))
}

fn c_changed_over(table: &Table) -> Plan {
    with_c(table, |rows, sent| {
        c_moving(rows, sent, |sent, first, second| {
            rules::exchange(sent, second, first)
        })
    })
}

fn c_later_outer(table: &Table) -> Plan {
    with_c(table, |rows, sent| {
        c_moving(rows, sent, |sent, first, second| {
            if same_nodes(&rows[first], &rows[second]) {
                rules::exchange(sent, second, first);
            } else {
                rules::move_pair(rows, sent, first, second);
            }
        })
    })
}

fn c_at_start(table: &Table) -> Plan {
    with_c(table, |rows, sent| {
        let split: Vec<bool> = sent.iter().map(rules::is_split).collect();
        for first in 0..rows.len() {
            for second in first + 1..rows.len() {
                let both = split[first] && split[second];
                if both && !rules::cross(&rows[first], &rows[second]) {
                    rules::move_pair(rows, sent, first, second);
                }
            }
        }
    })
}

fn c_shared(table: &Table) -> Plan {
    with_c(table, |rows, sent| {
        c_kept(rows, sent, |one, two| {
            one.first != two.first && one.second != two.second && one.second != two.first
        })
    })
}

fn c_other_nodes(table: &Table) -> Plan {
    with_c(table, |rows, sent| {
        c_kept(rows, sent, |one, two| !same_nodes(one, two))
    })
}

fn c_touching(table: &Table) -> Plan {
    with_c(table, |rows, sent| {
        c_kept(rows, sent, |one, two| one.second != two.first)
    })
}

// Faults of rule D and of the size.

/// The plan with other directions.
fn with_d(table: &Table, rule_d: impl Fn(&[Row], &[Sent]) -> Vec<Way>) -> Plan {
    let cut = rules::rule_a(table);
    let mut sent = rules::rule_b(table, cut.across);
    rules::rule_c(&table.rows, &mut sent);
    let ways = rule_d(&table.rows, &sent);
    rules::figures(table, cut, sent, ways)
}

/// Rule D with another D, and S changed after each step.
fn d_with(sent: &[Sent], largest: i64, after: fn(i64, i64) -> i64) -> Vec<Way> {
    let mut s = 0;
    let mut ways = Vec::new();
    for row in sent {
        let (way, now) = rules::turn(row, s, largest);
        ways.push(way);
        s = after(s, now);
    }
    ways
}

fn d_all(table: &Table) -> Plan {
    with_d(table, |rows, sent| {
        let largest = rows.iter().map(|row| row.amount).max().unwrap_or(0);
        d_with(sent, largest, |_, s| s)
    })
}

fn d_before(table: &Table) -> Plan {
    let before = rules::rule_b(table, rules::rule_a(table).across);
    let largest = rules::largest_split(&table.rows, &before);
    with_d(table, |_, sent| d_with(sent, largest, |_, s| s))
}

fn d_clamped(table: &Table) -> Plan {
    with_d(table, |rows, sent| {
        d_with(sent, rules::largest_split(rows, sent), |_, s| s.max(0))
    })
}

fn d_rising(table: &Table) -> Plan {
    with_d(table, |rows, sent| {
        d_with(sent, rules::largest_split(rows, sent), |old, s| s.max(old))
    })
}

fn d_strict(table: &Table) -> Plan {
    with_d(table, |rows, sent| {
        d_with(sent, rules::largest_split(rows, sent) - 1, |_, s| s)
    })
}

fn d_twice(table: &Table) -> Plan {
    with_d(table, |rows, sent| {
        d_with(sent, 2 * rules::largest_split(rows, sent), |_, s| s)
    })
}

fn d_zero(table: &Table) -> Plan {
    with_d(table, |rows, sent| {
        let mut ways = rules::rule_d(rows, sent);
        for (at, row) in rows.iter().enumerate() {
            if row.amount == 0 {
                ways[at] = Way::B;
            }
        }
        ways
    })
}

fn z_above(table: &Table) -> Plan {
    let mut plan = rules::plan(table);
    plan.size = rules::size(table.family, rules::least_size(table, plan.peak) + 1);
    plan
}

fn z_largest(table: &Table) -> Plan {
    let mut plan = rules::plan(table);
    let largest = table.family.sizes()[4];
    plan.size = rules::size(
        table.family,
        rules::least_size(table, plan.peak).min(largest),
    );
    plan
}

fn z_once(table: &Table) -> Plan {
    let mut plan = rules::plan(table);
    plan.size = rules::size(table.family, plan.peak);
    plan
}

fn z_twice(table: &Table) -> Plan {
    let mut plan = rules::plan(table);
    plan.size = rules::size(table.family, 2 * plan.peak);
    plan
}

fn four_fibres(mut table: Table) -> Table {
    table.fibres = 4;
    table
}

// Faults of reading.

/// The two numbers of the R line, if it has its shape.
fn ring_of(text: &[u8]) -> Option<Vec<i64>> {
    Some(table::ring_fields(table::lines(text).first()?)?.0)
}

/// 20 in the place of 3, where it holds too.
fn early<T>(text: &[u8], read: Result<T, Refusal>) -> Result<T, Refusal> {
    let off = ring_of(text).is_some_and(|ring| !table::known_fibres(ring[1]));
    read.map_err(|refusal| match refusal.reason {
        3 if off => Refusal {
            reason: 20,
            line: 1,
            byte: table::start_of(&table::lines(text)[0], 2),
        },
        _ => refusal,
    })
}

/// The text with four fibres in the place of another number.
fn with_four(text: &[u8]) -> Vec<u8> {
    let rest = text.split_inclusive(|byte| *byte == b'\n').skip(1);
    match ring_of(text) {
        Some(ring) if !table::known_fibres(ring[1]) => {
            let sdh = text.starts_with(format!("R\t{}\t{}\tM", ring[0], ring[1]).as_bytes());
            let end = if sdh { "\tM" } else { "" };
            let first = format!("R\t{}\t4{end}\n", ring[0]).into_bytes();
            [first, rest.flatten().copied().collect()].concat()
        }
        _ => text.to_vec(),
    }
}

fn twenty_never(text: &[u8]) -> Result<Table, Refusal> {
    table::read_length(text)?;
    table::read(&with_four(text))
}

fn twenty_last(text: &[u8]) -> Result<Table, Refusal> {
    twenty_never(text)?;
    table::read(text)
}

fn sheet_twenty_never(text: &[u8]) -> Result<Sheet, Refusal> {
    table::read_length(text)?;
    check::read(&with_four(text))
}

fn old_ring(text: &[u8]) -> Result<Table, Refusal> {
    table::read(&with_fibres(text))
}

fn ring_64(text: &[u8]) -> Result<Table, Refusal> {
    match table::read(text) {
        Ok(table) if table.n == 64 => refuse(3, 1, 3),
        other => other,
    }
}

fn ring_33(text: &[u8]) -> Result<Table, Refusal> {
    match table::read(text) {
        Ok(table) if table.n > 32 => refuse(3, 1, 3),
        other => other,
    }
}

fn ring_65(text: &[u8]) -> Result<Table, Refusal> {
    match text.strip_prefix(b"R\t65\t4\n") {
        Some(rest) => table::read(&[b"R\t64\t4\n", rest].concat()),
        None => table::read(text),
    }
}

fn many_first(text: &[u8]) -> Result<Table, Refusal> {
    table::read(text).map_err(|refusal| too_many_lines(text, refusal))
}

fn without_many(text: &[u8]) -> Result<Table, Refusal> {
    match table::read(text) {
        Err(refusal) if refusal.reason == 16 => table::read(&first_rows(text)),
        read => read,
    }
}

fn doubled(text: &[u8]) -> Result<Table, Refusal> {
    let mut lines: Vec<&[u8]> = text.split_inclusive(|byte| *byte == b'\n').collect();
    lines.dedup();
    table::read(&lines.concat())
}

fn shape_first(text: &[u8]) -> Result<Table, Refusal> {
    let lines = text.split_inclusive(|byte| *byte == b'\n');
    for (at, line) in lines.enumerate().skip(1) {
        let alone = table::read(&[b"R\t64\t4\n", line].concat());
        match alone {
            Err(refusal) if text.len() <= TEXT && refusal.reason == 2 => {
                return refuse(2, at as u32 + 1, refusal.byte);
            }
            _ => (),
        }
    }
    table::read(text)
}

fn without_zeros(mut table: Table) -> Table {
    table.rows.retain(|row| row.amount > 0);
    table
}

fn by_amount(mut table: Table) -> Table {
    table
        .rows
        .sort_by_key(|row| (row.first, row.second, row.amount));
    table
}
