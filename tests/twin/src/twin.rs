//! What the twin says of a call: the reply and the content of the lent buffer.

use crate::check;
use crate::choice;
use crate::lowered;
use crate::matrix;
use crate::report;
use crate::rules;
use crate::sheet;
use crate::table::{self, Refusal};

/// The calls that are compared.
#[derive(Clone, Copy, PartialEq, Eq, Debug)]
pub enum Call {
    /// Table text in, sheet text out.
    Route,
    /// The same by the best choice.
    RouteBest,
    /// By lowered rooms, with rule D and with the best choice.
    RouteLowered,
    RouteLoweredBest,
    /// The table's own values written afresh.
    Rewrite,
    /// Sheet text in, no more than the reply out.
    Check,
    /// The sheet's own values written afresh.
    RewriteSheet,
    /// The first parallel pair of split rows of an accepted sheet.
    Parallel,
    /// Matrix text in, table text out, with the numbers of fibres and family that are told.
    ReadMatrix(u32, u32),
    /// Table text in, matrix text out.
    WriteMatrix,
    /// A text of many plans in, its report out.
    Report,
}

/// All calls that the groups of texts make, each at its place.
pub const CALLS: [Call; 7] = [
    Call::Route,
    Call::Rewrite,
    Call::Check,
    Call::RewriteSheet,
    Call::Parallel,
    Call::ReadMatrix(4, 0),
    Call::WriteMatrix,
];

impl Call {
    /// Where the call stands among these, whatever it is told.
    pub fn place(self) -> usize {
        let same = |call: &Call| std::mem::discriminant(call) == std::mem::discriminant(&self);
        CALLS.iter().position(same).expect("a call")
    }

    /// The call by itself, whatever it is told.
    #[cfg(remote)]
    pub fn name(self) -> String {
        let words = format!("{self:?}");
        words.split('(').next().unwrap_or_default().to_owned()
    }

    /// The numbers that the call is told beside the text; 0 where it is told none.
    #[cfg(remote)]
    pub fn told(self) -> [u32; 4] {
        match self {
            Call::ReadMatrix(fibres, family) => [fibres, family, 0, 0],
            _ => [0; 4],
        }
    }

    /// Whether a buffer is lent.
    pub fn writes(self) -> bool {
        !matches!(self, Call::Check | Call::Parallel)
    }
}

/// The reply of a call that judges or writes: reason 0 is success, with byte 0 and
/// the length of the text, 0 where none is written.
#[repr(C)]
#[derive(Clone, Copy, PartialEq, Eq, Debug)]
pub struct Reply {
    pub reason: u32,
    pub line: u32,
    pub byte: u32,
    pub length: usize,
}

impl Reply {
    pub fn of(refusal: Refusal, length: usize) -> Reply {
        let Refusal { reason, line, byte } = refusal;
        Reply {
            reason,
            line,
            byte,
            length,
        }
    }
}

/// The reply to the parallel question: two places from 1, or 0 and 0.
#[repr(C)]
#[derive(Clone, Copy, PartialEq, Eq, Debug)]
pub struct Pair {
    pub reason: u32,
    pub line: u32,
    pub byte: u32,
    pub first: usize,
    pub second: usize,
}

impl Pair {
    pub fn of(refusal: Refusal, (first, second): (usize, usize)) -> Pair {
        let Refusal { reason, line, byte } = refusal;
        Pair {
            reason,
            line,
            byte,
            first,
            second,
        }
    }
}

/// What a call says.
#[derive(Clone, Copy, PartialEq, Eq, Debug)]
pub enum Said {
    Reply(Reply),
    Pair(Pair),
}

impl Said {
    pub fn reason(self) -> u32 {
        match self {
            Said::Reply(reply) => reply.reason,
            Said::Pair(pair) => pair.reason,
        }
    }

    /// The line and the byte in it.
    pub fn place(self) -> (u32, u32) {
        match self {
            Said::Reply(reply) => (reply.line, reply.byte),
            Said::Pair(pair) => (pair.line, pair.byte),
        }
    }
}

/// What an accepted text gets: the text to be written, empty for a call that
/// lends no buffer, and the pair that was asked for, if there is one.
#[derive(Clone, Default, Debug)]
pub struct Granted {
    pub text: Vec<u8>,
    pub pair: Option<(usize, usize)>,
}

/// What is granted, or the refusal of the text.
pub type Answer = Result<Granted, Refusal>;

/// Reading the table, the sheet or the matrix, then what the call is for.
pub fn answer(call: Call, text: &[u8]) -> Answer {
    match call {
        Call::Route => {
            let table = table::read(text)?;
            Ok(written(sheet::sheet_text(&table, &rules::plan(&table))))
        }
        Call::RouteBest => {
            let table = table::read(text)?;
            Ok(written(sheet::sheet_text(&table, &choice::plan(&table)?)))
        }
        Call::RouteLowered => {
            let table = table::read(text)?;
            Ok(written(sheet::sheet_text(&table, &lowered::plan(&table))))
        }
        Call::RouteLoweredBest => {
            let table = table::read(text)?;
            let plan = lowered::best_plan(&table)?;
            Ok(written(sheet::sheet_text(&table, &plan)))
        }
        Call::Rewrite => Ok(written(sheet::table_text(&table::read(text)?))),
        Call::Check => check::read(text).map(|_| Granted::default()),
        Call::RewriteSheet => {
            let sheet = check::read(text)?;
            Ok(written(sheet::sheet_text(&sheet.table, &sheet.plan)))
        }
        Call::Parallel => Ok(found(check::first_parallel(&check::read(text)?))),
        Call::ReadMatrix(fibres, family) => {
            let table = matrix::table_of(&matrix::read_told(text, fibres)?, fibres, family);
            Ok(written(sheet::table_text(&table)))
        }
        Call::WriteMatrix => {
            let sums = matrix::add_up(&table::read(text)?)?;
            Ok(written(matrix::matrix_text(&sums)))
        }
        Call::Report => report::answer(text),
    }
}

pub fn written(text: Vec<u8>) -> Granted {
    Granted { text, pair: None }
}

pub fn found(pair: Option<(usize, usize)>) -> Granted {
    let text = Vec::new();
    Granted { text, pair }
}

/// 15 comes after all reasons of the text, and is given exactly when the buffer
/// is too short. A refusal returns only reason, line and byte. Success writes its
/// text at the buffer's start, returns its length and keeps the bytes after it.
pub fn reply(answer: &Answer, buffer: &mut [u8]) -> Reply {
    match answer {
        Err(refusal) => refused(refusal),
        Ok(granted) if buffer.len() < granted.text.len() => refused(&NO_ROOM),
        Ok(granted) => {
            let length = granted.text.len();
            buffer[..length].copy_from_slice(&granted.text);
            Reply::of(Refusal::NONE, length)
        }
    }
}

pub const NO_ROOM: Refusal = Refusal {
    reason: 15,
    line: 0,
    byte: 0,
};

pub fn refused(refusal: &Refusal) -> Reply {
    Reply::of(*refusal, 0)
}

/// The answer that there is none is told from a pair by its places, which are 0.
pub fn pair(answer: &Answer) -> Pair {
    match answer {
        Err(refusal) => Pair::of(*refusal, (0, 0)),
        Ok(granted) => Pair::of(Refusal::NONE, granted.pair.unwrap_or((0, 0))),
    }
}

/// The reply that the call has, whichever kind it is.
pub fn say(call: Call, answer: &Answer, buffer: &mut [u8]) -> Said {
    match call {
        Call::Parallel => Said::Pair(pair(answer)),
        _ => Said::Reply(reply(answer, buffer)),
    }
}
