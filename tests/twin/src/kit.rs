//! The library that is compared with the twin, behind a safe call. Built with
//! `--cfg mock`, the twin itself stands in for the library; with `--cfg remote`
//! the library is not linked but asked in a process of its own.

use crate::check::Finding;
use crate::crossing::CrossingReply;
use crate::least::LeastReply;
use crate::mutant::Mutant;
#[cfg(remote)]
use crate::remote::{
    library, library_crossing, library_judge, library_least, library_turn, library_work,
};
use crate::turns::TurnReply;
use crate::twin::{Call, Said};
#[cfg(not(any(mock, remote)))]
use crate::twin::{Pair, Reply};
use crate::values::Values;
#[cfg(not(any(mock, remote)))]
use crate::values::{HeldLink, HeldRow};
use crate::working::{Ask, Told};
#[cfg(not(any(mock, remote)))]
use crate::working::{RowReply, WorkReply};
#[cfg(not(any(mock, remote)))]
use crate::working_compare::GUARD_WORDS;
#[cfg(mock)]
use crate::working_stand_in::{stand_in, SOUND};
use std::ops::Range;

/// What answers the calls.
#[derive(Clone, Copy)]
pub enum Kit {
    Library,
    Mutant(&'static Mutant),
}

impl Kit {
    /// One call. The lent buffer is the part `lent` of `area`; the bytes of
    /// `area` around it are not lent. The text is handed over so that a call
    /// that changes it can be seen.
    pub fn call(self, call: Call, text: &mut [u8], area: &mut [u8], lent: Range<usize>) -> Said {
        match self {
            Kit::Library => library(call, text, area, lent),
            Kit::Mutant(mutant) => mutant.call(call, text, area, lent),
        }
    }

    /// One call of the working table, which lies in `words` between those that
    /// are not lent.
    pub fn work(self, ask: &Ask, words: &mut [u32], area: &mut [u8], lent: Range<usize>) -> Told {
        match self {
            Kit::Library => library_work(ask, words, area, lent),
            Kit::Mutant(mutant) => mutant.work(ask, words, &mut area[lent]),
        }
    }

    /// Circuits sent one turn at a time; the lent ways are the part `lent` of `area`.
    pub fn turn(self, text: &mut [u8], area: &mut [u8], lent: Range<usize>) -> TurnReply {
        match self {
            Kit::Library => library_turn(text, area, lent),
            Kit::Mutant(mutant) => mutant.turn(text, &mut area[lent]),
        }
    }

    /// Whether the circuits of a table all cross each other.
    pub fn crossing(self, text: &mut [u8]) -> CrossingReply {
        match self {
            Kit::Library => library_crossing(text),
            Kit::Mutant(mutant) => mutant.crossing(text),
        }
    }

    /// The least of five rules; the lent ways are the part `lent` of `area`.
    pub fn least(self, text: &mut [u8], area: &mut [u8], lent: Range<usize>) -> LeastReply {
        match self {
            Kit::Library => library_least(text, area, lent),
            Kit::Mutant(mutant) => mutant.least(text, &mut area[lent]),
        }
    }

    /// One judging of values, handed over so that a call that changes them can be
    /// seen.
    pub fn judge(self, values: &mut Values) -> Finding {
        match self {
            Kit::Library => library_judge(values),
            Kit::Mutant(mutant) => mutant.judge(values),
        }
    }
}

#[cfg(not(any(mock, remote)))]
type Writing = unsafe extern "C" fn(*const u8, usize, *mut u8, usize) -> Reply;

#[cfg(not(any(mock, remote)))]
extern "C" {
    fn ringkit_route(
        table_ptr: *const u8,
        table_len: usize,
        buffer_ptr: *mut u8,
        buffer_len: usize,
    ) -> Reply;
    fn ringkit_route_best(
        table_ptr: *const u8,
        table_len: usize,
        buffer_ptr: *mut u8,
        buffer_len: usize,
    ) -> Reply;
    fn ringkit_route_lowered(
        table_ptr: *const u8,
        table_len: usize,
        buffer_ptr: *mut u8,
        buffer_len: usize,
    ) -> Reply;
    fn ringkit_route_lowered_best(
        table_ptr: *const u8,
        table_len: usize,
        buffer_ptr: *mut u8,
        buffer_len: usize,
    ) -> Reply;
    fn ringkit_rewrite_table(
        table_ptr: *const u8,
        table_len: usize,
        buffer_ptr: *mut u8,
        buffer_len: usize,
    ) -> Reply;
    fn ringkit_check(sheet_ptr: *const u8, sheet_len: usize) -> Reply;
    fn ringkit_rewrite_sheet(
        sheet_ptr: *const u8,
        sheet_len: usize,
        buffer_ptr: *mut u8,
        buffer_len: usize,
    ) -> Reply;
    fn ringkit_parallel(sheet_ptr: *const u8, sheet_len: usize) -> Pair;
    fn ringkit_read_matrix(
        matrix_ptr: *const u8,
        matrix_len: usize,
        fibres: u32,
        family: u32,
        buffer_ptr: *mut u8,
        buffer_len: usize,
    ) -> Reply;
    fn ringkit_write_matrix(
        table_ptr: *const u8,
        table_len: usize,
        buffer_ptr: *mut u8,
        buffer_len: usize,
    ) -> Reply;
    fn ringkit_report(
        sheets_ptr: *const u8,
        sheets_len: usize,
        buffer_ptr: *mut u8,
        buffer_len: usize,
    ) -> Reply;
    fn ringkit_turn(table_ptr: *const u8, table_len: usize, ways_ptr: *mut u8) -> TurnReply;
    fn ringkit_crossing(table_ptr: *const u8, table_len: usize) -> CrossingReply;
    fn ringkit_least(table_ptr: *const u8, table_len: usize, ways_ptr: *mut u8) -> LeastReply;
    fn ringkit_judge(
        rows_ptr: *const HeldRow,
        rows_len: usize,
        n: u32,
        fibres: u32,
        family: u32,
        g: u32,
        h: u32,
        across: u32,
        links_ptr: *const HeldLink,
        links_len: usize,
        peak: u32,
        size: u32,
    ) -> Finding;
    fn ringkit_work_start(work: *mut u32, n: u32, fibres: u32, family: u32) -> WorkReply;
    fn ringkit_work_add(work: *mut u32, first: u32, second: u32, amount: u32) -> WorkReply;
    fn ringkit_work_change(
        work: *mut u32,
        place: u32,
        first: u32,
        second: u32,
        amount: u32,
    ) -> WorkReply;
    fn ringkit_work_remove(work: *mut u32, place: u32) -> WorkReply;
    fn ringkit_work_row(work: *const u32, place: u32) -> RowReply;
    fn ringkit_work_write(work: *const u32, buffer_ptr: *mut u8, buffer_len: usize) -> Reply;
}

#[cfg(not(any(mock, remote)))]
fn library(call: Call, text: &mut [u8], area: &mut [u8], lent: Range<usize>) -> Said {
    let buffer = &mut area[lent];
    let (text_ptr, text_len) = (text.as_mut_ptr().cast_const(), text.len());
    let write: Writing = match call {
        Call::Route => ringkit_route,
        Call::RouteBest => ringkit_route_best,
        Call::RouteLowered => ringkit_route_lowered,
        Call::RouteLoweredBest => ringkit_route_lowered_best,
        Call::Rewrite => ringkit_rewrite_table,
        Call::RewriteSheet => ringkit_rewrite_sheet,
        Call::WriteMatrix => ringkit_write_matrix,
        Call::Report => ringkit_report,
        // SAFETY: the pointer comes from a slice of the length given, which
        // lives through the call.
        Call::Check => return Said::Reply(unsafe { ringkit_check(text_ptr, text_len) }),
        Call::Parallel => return Said::Pair(unsafe { ringkit_parallel(text_ptr, text_len) }),
        // SAFETY: as below.
        Call::ReadMatrix(fibres, family) => {
            let (room, length) = (buffer.as_mut_ptr(), buffer.len());
            let reply =
                unsafe { ringkit_read_matrix(text_ptr, text_len, fibres, family, room, length) };
            return Said::Reply(reply);
        }
    };
    // SAFETY: both pointers come from slices of the lengths given, which live
    // through the call and do not overlap.
    Said::Reply(unsafe { write(text_ptr, text_len, buffer.as_mut_ptr(), buffer.len()) })
}

#[cfg(not(any(mock, remote)))]
fn library_work(ask: &Ask, words: &mut [u32], area: &mut [u8], lent: Range<usize>) -> Told {
    let buffer = &mut area[lent];
    let work = words[GUARD_WORDS..].as_mut_ptr();
    // SAFETY: the table's words lie at the pointer, which is aligned as they are,
    // and live through the call; the buffer is another slice.
    unsafe {
        match *ask {
            Ask::Start([n, fibres, family]) => {
                Told::Work(ringkit_work_start(work, n, fibres, family))
            }
            Ask::Add([first, second, amount]) => {
                Told::Work(ringkit_work_add(work, first, second, amount))
            }
            Ask::Change(place, [first, second, amount]) => {
                Told::Work(ringkit_work_change(work, place, first, second, amount))
            }
            Ask::Remove(place) => Told::Work(ringkit_work_remove(work, place)),
            Ask::Row(place) => Told::Row(ringkit_work_row(work, place)),
            Ask::Write(_) => {
                Told::Text(ringkit_work_write(work, buffer.as_mut_ptr(), buffer.len()))
            }
        }
    }
}

/// A call that reads a table and writes ways.
#[cfg(not(any(mock, remote)))]
type WaysWriting<R> = unsafe extern "C" fn(*const u8, usize, *mut u8) -> R;

#[cfg(not(any(mock, remote)))]
fn ways_of<R>(call: WaysWriting<R>, text: &mut [u8], area: &mut [u8], lent: Range<usize>) -> R {
    let ways = &mut area[lent];
    let (text_ptr, text_len) = (text.as_mut_ptr().cast_const(), text.len());
    // SAFETY: the text's pointer comes from a slice of the length given, that of the
    // ways from one of as many bytes as rows may be; both live through the call and
    // do not overlap.
    unsafe { call(text_ptr, text_len, ways.as_mut_ptr()) }
}

#[cfg(not(any(mock, remote)))]
fn library_turn(text: &mut [u8], area: &mut [u8], lent: Range<usize>) -> TurnReply {
    ways_of(ringkit_turn, text, area, lent)
}

#[cfg(not(any(mock, remote)))]
fn library_least(text: &mut [u8], area: &mut [u8], lent: Range<usize>) -> LeastReply {
    ways_of(ringkit_least, text, area, lent)
}

#[cfg(not(any(mock, remote)))]
fn library_crossing(text: &mut [u8]) -> CrossingReply {
    // SAFETY: the pointer comes from a slice of the length given, which lives through
    // the call.
    unsafe { ringkit_crossing(text.as_mut_ptr().cast_const(), text.len()) }
}

#[cfg(not(any(mock, remote)))]
fn library_judge(values: &mut Values) -> Finding {
    let (rows, links) = (&mut values.rows, &mut values.links);
    // SAFETY: both pointers come from slices of the lengths given, which live
    // through the call.
    unsafe {
        ringkit_judge(
            rows.as_mut_ptr().cast_const(),
            rows.len(),
            values.n,
            values.fibres,
            values.family,
            values.g,
            values.h,
            values.across,
            links.as_mut_ptr().cast_const(),
            links.len(),
            values.peak,
            values.size,
        )
    }
}

#[cfg(mock)]
fn library_turn(text: &mut [u8], area: &mut [u8], lent: Range<usize>) -> TurnReply {
    crate::turns::turn(text, &mut area[lent])
}

#[cfg(mock)]
fn library_crossing(text: &mut [u8]) -> CrossingReply {
    crate::crossing::ask(text)
}

#[cfg(mock)]
fn library_least(text: &mut [u8], area: &mut [u8], lent: Range<usize>) -> LeastReply {
    crate::least::least(text, &mut area[lent])
}

#[cfg(mock)]
fn library_judge(values: &mut Values) -> Finding {
    crate::values::judge(values)
}

#[cfg(mock)]
fn library_work(ask: &Ask, words: &mut [u32], area: &mut [u8], lent: Range<usize>) -> Told {
    stand_in(&SOUND, ask, words, &mut area[lent])
}

#[cfg(mock)]
fn library(call: Call, text: &mut [u8], area: &mut [u8], lent: Range<usize>) -> Said {
    let buffer = &mut area[lent];
    crate::twin::say(call, &crate::twin::answer(call, text), buffer)
}
