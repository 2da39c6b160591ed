//! Faults of the byte that goes with a refusal: what mutant.rs lists. Each
//! keeps reason and line, and points to another byte.

use crate::byte_tally::{due, Due};
use crate::mutant::{pointing, say, write, Mutant};
use crate::shape::{self, first_fault};
use crate::table::{self, start_of, Line, Refusal};
use crate::twin::{self, Answer, Call, Reply, Said};
use std::ops::Range;

/// A refusal, and what it is of.
pub struct Pointed<'a> {
    pub call: Call,
    pub text: &'a [u8],
    pub refusal: Refusal,
}

type Byte = u32;

pub static BYTE_FAULTS: [Mutant; 62] = [
    pointing("byte: counted from 0", |p| p.byte().saturating_sub(1)),
    pointing("byte: counted in the text, not in the line", in_text),
    pointing("byte: the field's number", |p| p.field() as Byte),
    pointing("byte: tabs not counted", |p| p.byte() - p.field() as Byte),
    pointing("byte: in 8 bits", |p| p.byte() % 256),
    pointing("byte: in 15 bits", |p| p.byte() % 32_768),
    pointing("byte: the end of a field for its start", |p| {
        p.of_field(p.byte() + p.spelled() - 1)
    }),
    pointing("byte: behind a field for its start", |p| {
        p.of_field(p.byte() + p.spelled())
    }),
    pointing("byte: the tab before a field for its start", |p| {
        p.of_field(p.byte() - 1)
    }),
    pointing("3: 1", |p| p.instead(3, 1)),
    pointing("20: 1", |p| p.instead(20, 1)),
    pointing("4: 1", |p| p.instead(4, 1)),
    pointing("7: 1 of a row", |p| p.of_row(7, 1)),
    pointing("7: 1 of a matrix", |p| p.of_matrix(7, 1)),
    pointing("17: 1", |p| p.instead(17, 1)),
    pointing("18: 1", |p| p.instead(18, 1)),
    pointing("3: where the fibres start", |p| p.of_row(3, p.start(2))),
    pointing("20: where n starts", |p| p.instead(20, p.start(1))),
    pointing("4: where the first node starts", |p| {
        p.instead(4, p.start(1))
    }),
    pointing("4: where the second node starts", |p| {
        p.instead(4, p.start(2))
    }),
    pointing("4: the second bad node", second_bad_node),
    pointing("7: where the second node starts", |p| {
        p.of_row(7, p.start(2))
    }),
    pointing("7: the last entry over", last_over),
    pointing("17, 18: the entry before", |p| match p.refusal.reason {
        17 | 18 => p.start(p.field().saturating_sub(1)),
        _ => p.byte(),
    }),
    pointing("18: the mirror's byte", mirrored),
    pointing("5: where the first node starts", |p| p.instead(5, 3)),
    pointing("6: where the first node starts", |p| p.instead(6, 3)),
    pointing("16: where the first node starts", |p| p.instead(16, 3)),
    pointing("8: where the front starts", |p| p.instead(8, p.start(4))),
    pointing("9: where the way starts", |p| p.instead(9, p.start(6))),
    pointing("10: where g starts", |p| p.instead(10, 3)),
    pointing("11: where the link starts", |p| p.instead(11, 3)),
    pointing("12: where the peak starts", |p| p.instead(12, 3)),
    pointing("19: where the amount starts", |p| p.instead(19, p.start(3))),
    pointing("3: the LF of a matrix's first line", |p| {
        p.of_matrix(3, p.length())
    }),
    pointing("1: byte 1", |p| p.instead(1, 1)),
    pointing("13: byte 1", |p| p.instead(13, 1)),
    pointing("14: byte 1", |p| p.instead(14, 1)),
    pointing("20: byte 1 of a matrix", |p| p.of_matrix(20, 1)),
    write("15: byte 1", no_room_at_1),
    write("byte: 1 on success", written_at_1),
    say("byte: 1 on success of a check", said_at_1),
    pointing("2: 1", |p| p.instead(2, 1)),
    pointing("2: 0 for a missing line", |p| match p.line() {
        None => p.instead(2, 0),
        Some(_) => p.byte(),
    }),
    pointing("2: 0 for a line left over", |p| match p.due() {
        Some(Due::Nothing) => p.instead(2, 0),
        _ => p.byte(),
    }),
    pointing("2: a left-over line's own fault", own_fault),
    pointing("2: p for p + 1 behind the line", |p| p.behind(p.byte() - 1)),
    pointing("2: 1 for no LF", |p| p.behind(1)),
    pointing("2: D or C, the smaller place", |p| p.either(1)),
    pointing("2: D or C, that of D", |p| {
        p.either(p.fault(shape::row_of_sheet()))
    }),
    pointing("2: D or C, that of C", |p| {
        p.either(p.fault(shape::lettered(b"C", 3)))
    }),
    pointing("2: where a badly spelled number starts", |p| {
        p.of_number(p.start(p.field()))
    }),
    pointing("2: the leading 0", |p| {
        match p.digit() && p.before() == Some(b'0') {
            true if p.byte() == p.start(p.field()) + 1 => p.byte() - 1,
            _ => p.byte(),
        }
    }),
    pointing("2: the last of too many digits", |p| match p.digit() {
        true => p.start(p.field()) + p.digits() - 1,
        false => p.byte(),
    }),
    pointing("2: the last good digit", |p| match p.digit() {
        true => p.byte() - 1,
        false => p.byte(),
    }),
    pointing("2: behind a missing digit", |p| match p.at() {
        Some(b'\t' | b'\n') if p.byte() == p.start(p.field()) => p.byte() + 1,
        _ => p.byte(),
    }),
    pointing("2: the digit before a missing tab or LF", |p| {
        match p.before() {
            Some(b'0'..=b'9') if p.refusal.reason == 2 && !p.digit() => p.byte() - 1,
            _ => p.byte(),
        }
    }),
    pointing("2: the letter for what is behind it", |p| match p.field() {
        0 => p.lettered(1),
        _ => p.byte(),
    }),
    pointing("2: the way for what is behind it", |p| match p.field() {
        6 => p.lettered(p.start(6)),
        _ => p.byte(),
    }),
    pointing("2: LF for a tab too many in a matrix", |p| {
        p.of_count(b'\t', p.length())
    }),
    pointing("2: 1 for a tab too many in a matrix", |p| {
        p.of_count(b'\t', 1)
    }),
    pointing("2: 1 for too few fields of a matrix", |p| {
        p.of_count(b'\n', 1)
    }),
];

impl<'a> Pointed<'a> {
    pub fn byte(&self) -> Byte {
        self.refusal.byte
    }

    /// None where the line is missing, or there is none.
    pub fn line(&self) -> Option<Line<'a>> {
        let at = (self.refusal.line as usize).checked_sub(1)?;
        table::lines(self.text).get(at).copied()
    }

    /// What is due on the line.
    pub fn due(&self) -> Option<Due> {
        let lines = table::lines(self.text);
        let line = self.refusal.line as usize;
        (line > 0).then(|| due(self.call, &lines, line))
    }

    /// How many bytes the line has, its LF among them.
    fn length(&self) -> Byte {
        let length = |line: Line| line.bytes.len() as Byte + Byte::from(line.ended);
        self.line().map_or(0, length)
    }

    /// What stands so many bytes behind the first of the line.
    fn byte_at(&self, at: Option<usize>) -> Option<u8> {
        let line = self.line()?;
        let ended = at == Some(line.bytes.len()) && line.ended;
        line.bytes.get(at?).copied().or(ended.then_some(b'\n'))
    }

    pub fn at(&self) -> Option<u8> {
        self.byte_at((self.byte() as usize).checked_sub(1))
    }

    fn before(&self) -> Option<u8> {
        self.byte_at((self.byte() as usize).checked_sub(2))
    }

    /// How many tabs stand before the byte.
    pub fn field(&self) -> usize {
        let bytes = self.line().map_or(b"".as_slice(), |line| line.bytes);
        let end = bytes.len().min((self.byte() as usize).saturating_sub(1));
        bytes[..end].iter().filter(|byte| **byte == b'\t').count()
    }

    fn start(&self, field: usize) -> Byte {
        self.line().map_or(0, |line| start_of(&line, field))
    }

    /// How many bytes the field has.
    fn spelled(&self) -> Byte {
        let field = |line: Line<'a>| {
            let mut fields = line.bytes.split(|byte| *byte == b'\t');
            fields.nth(self.field())
        };
        self.line()
            .and_then(field)
            .map_or(0, |field| field.len() as Byte)
    }

    /// With how many digits the field begins.
    fn digits(&self) -> Byte {
        let from = self.start(self.field()) as usize - 1;
        let bytes = self
            .line()
            .map_or(b"".as_slice(), |line| &line.bytes[from..]);
        bytes
            .iter()
            .take_while(|byte| byte.is_ascii_digit())
            .count() as Byte
    }

    /// Whether a digit of a number is at fault: behind a leading 0, or one too many.
    fn digit(&self) -> bool {
        let number = self.line().is_some() && self.digits() > 1;
        self.refusal.reason == 2 && number && self.at().is_some_and(|at| at.is_ascii_digit())
    }

    /// Another byte where this is the reason.
    fn instead(&self, reason: u32, byte: Byte) -> Byte {
        if self.refusal.reason == reason {
            byte
        } else {
            self.byte()
        }
    }

    fn of_matrix(&self, reason: u32, byte: Byte) -> Byte {
        match self.call {
            Call::ReadMatrix(..) => self.instead(reason, byte),
            _ => self.byte(),
        }
    }

    fn of_row(&self, reason: u32, byte: Byte) -> Byte {
        match self.call {
            Call::ReadMatrix(..) => self.byte(),
            _ => self.instead(reason, byte),
        }
    }

    /// Another byte where the reason points to a field.
    fn of_field(&self, byte: Byte) -> Byte {
        match self.refusal.reason {
            3 => self.of_row(3, byte),
            4 | 7 | 17 | 18 => byte,
            20 => self.of_row(20, byte),
            _ => self.byte(),
        }
    }

    /// Another byte where a line that is there has no line's shape.
    fn misshapen(&self, byte: impl FnOnce() -> Byte) -> Byte {
        match (self.refusal.reason, self.line(), self.due()) {
            (2, Some(_), Some(due)) if due != Due::Nothing => byte(),
            _ => self.byte(),
        }
    }

    /// Another byte where it is the one behind the line.
    fn behind(&self, byte: Byte) -> Byte {
        self.misshapen(|| match self.at() {
            None => byte,
            Some(_) => self.byte(),
        })
    }

    /// Another byte where D or C is due.
    fn either(&self, byte: Byte) -> Byte {
        self.misshapen(|| match self.due() {
            Some(Due::RowOrCut) => byte,
            _ => self.byte(),
        })
    }

    /// Another byte where a number is badly spelled, not before it and not behind it.
    fn of_number(&self, byte: Byte) -> Byte {
        match self.at() {
            Some(b'\t' | b'\n') | None => self.byte(),
            Some(_) => self.misshapen(|| byte),
        }
    }

    /// Another byte where a letter is right and what follows is not.
    fn lettered(&self, byte: Byte) -> Byte {
        match self.call {
            Call::ReadMatrix(..) => self.byte(),
            _ => self.misshapen(|| byte),
        }
    }

    /// Another byte where a later line of a matrix has another number of fields, each
    /// well spelled up to there: this byte is at fault.
    fn of_count(&self, fault: u8, byte: Byte) -> Byte {
        match (self.due(), self.before()) {
            (Some(Due::Later(_)), Some(b'0'..=b'9')) if self.at() == Some(fault) => {
                self.misshapen(|| byte)
            }
            _ => self.byte(),
        }
    }

    fn fault(&self, shape: shape::Shape) -> Byte {
        self.line().map_or(1, |line| first_fault(&line, &[shape]))
    }

    /// The numbers of the line; none of a line that is no line of numbers.
    fn entries(&self) -> Vec<i64> {
        let line = self.line();
        line.and_then(|line| crate::matrix::entries(&line))
            .unwrap_or_default()
    }
}

fn in_text(p: &Pointed) -> Byte {
    let lines = p.text.split_inclusive(|byte| *byte == b'\n');
    let above = lines.take((p.refusal.line as usize).saturating_sub(1));
    above.map(|line| line.len() as Byte).sum::<Byte>() + p.byte()
}

fn second_bad_node(p: &Pointed) -> Byte {
    let lines = table::lines(p.text);
    let ring = lines.first().and_then(table::ring_fields);
    let second = p.line().and_then(|line| {
        let field = line.bytes.split(|byte| *byte == b'\t').nth(2)?;
        table::number(field)
    });
    match (ring, second) {
        (Some((ring, _)), Some(node)) if node < 1 || node > ring[0] => p.instead(4, p.start(2)),
        _ => p.byte(),
    }
}

fn last_over(p: &Pointed) -> Byte {
    let last = p
        .entries()
        .iter()
        .rposition(|entry| table::too_much(*entry));
    last.map_or(p.byte(), |last| p.of_matrix(7, p.start(last)))
}

/// The byte at which the mirror starts on its own line.
fn mirrored(p: &Pointed) -> Byte {
    let lines = table::lines(p.text);
    let mirror = lines.get(p.field()).filter(|_| p.refusal.reason == 18);
    mirror.map_or(p.byte(), |line| start_of(line, p.refusal.line as usize - 1))
}

fn own_fault(p: &Pointed) -> Byte {
    let shape = match (p.refusal.reason, p.due(), p.call) {
        (2, Some(Due::Nothing), Call::ReadMatrix(..)) => shape::any_numbers(),
        (2, Some(Due::Nothing), _) => shape::lettered(b"Z", 2),
        _ => return p.byte(),
    };
    let fault = p.fault(shape);
    if fault > p.length() && p.line().is_some_and(|line| line.ended) {
        return 1;
    }
    fault
}

fn no_room_at_1(answer: &Answer, area: &mut [u8], lent: Range<usize>) -> Reply {
    let mut reply = twin::reply(answer, &mut area[lent]);
    reply.byte += u32::from(reply.reason == 15);
    reply
}

fn written_at_1(answer: &Answer, area: &mut [u8], lent: Range<usize>) -> Reply {
    let mut reply = twin::reply(answer, &mut area[lent]);
    reply.byte += u32::from(reply.reason == 0);
    reply
}

fn said_at_1(_: &[u8], said: Said) -> Said {
    match said {
        Said::Reply(reply) if reply.reason == 0 => Said::Reply(Reply { byte: 1, ..reply }),
        Said::Pair(pair) if pair.reason == 0 => Said::Pair(twin::Pair { byte: 1, ..pair }),
        _ => said,
    }
}
