//! Stored cases, answered by the twin alone: each is a header of 12 bytes (the
//! letter of the call, the text's length and the buffer's in five digits each,
//! LF) and the text. Each is answered by a line. And stored values, which are judged
//! by the twin alone: lines that say how the values change, and what is then found.
//! And stored tables whose circuits are sent whole, one turn at a time or by the rule that
//! comes to the least peak: lines that say how long a table is, what is answered and the
//! ways, each with its table behind it; and such tables of which it is asked whether their
//! circuits cross.

use crate::check::Finding;
use crate::choice;
use crate::crossing::{ask, CrossingReply, ALL_CROSS};
use crate::least::{least, LeastReply};
use crate::rules;
use crate::table::{self, Table};
use crate::turns::{turn, TurnReply, WAYS};
use crate::twin::{self, Call, Said};
use crate::values::{self, HeldLink, HeldRow, Values};
use std::fmt::Debug;
use std::io::{Read, Write};

/// The buffer before a call, of which the case lends the beginning: as in crates/cases.
const ROOM: usize = 40_000;
const PATTERN: u8 = 0x55;

/// Answers the cases of standard input on standard output. False where one is
/// not spelled as a case.
pub fn answer_all() -> bool {
    let mut cases = Vec::new();
    if std::io::stdin().read_to_end(&mut cases).is_err() {
        return false;
    }
    let mut rest = cases.as_slice();
    let mut out = String::new();
    while let Some((call, text, room, after)) = next_case(rest) {
        out.push_str(&line(call, text, room));
        rest = after;
    }
    let written = std::io::stdout().write_all(out.as_bytes());
    rest.is_empty() && written.is_ok()
}

/// The next case: call, text, length of the lent buffer, and what follows.
fn next_case(cases: &[u8]) -> Option<(Call, &[u8], usize, &[u8])> {
    let (header, rest) = cases.split_at_checked(12)?;
    let call = match header[0] {
        b'R' => Call::Route,
        b'B' => Call::RouteBest,
        b'l' => Call::RouteLowered,
        b'm' => Call::RouteLoweredBest,
        b'T' => Call::Rewrite,
        b'C' => Call::Check,
        b'S' => Call::RewriteSheet,
        b'P' => Call::Parallel,
        // The number of fibres that the reader is told, of SONET, and the same of SDH.
        digit @ b'0'..=b'9' => Call::ReadMatrix(u32::from(digit - b'0'), 0),
        letter @ b'a'..=b'j' => Call::ReadMatrix(u32::from(letter - b'a'), 1),
        b'W' => Call::WriteMatrix,
        b'M' => Call::Report,
        _ => return None,
    };
    let number = |digits: &[u8]| std::str::from_utf8(digits).ok()?.parse().ok();
    let (length, room): (usize, usize) = (number(&header[1..6])?, number(&header[6..11])?);
    let (text, after) = rest.split_at_checked(length)?;
    (header[11] == b'\n' && room <= ROOM).then_some((call, text, room, after))
}

/// The reply's numbers and, where a buffer is lent, a sum over every byte of it.
fn line(call: Call, text: &[u8], room: usize) -> String {
    let mut buffer = vec![PATTERN; ROOM];
    let said = twin::say(call, &twin::answer(call, text), &mut buffer[..room]);
    let (line, byte) = said.place();
    let refusal = format!("{} {line} {byte}", said.reason());
    match said {
        Said::Pair(pair) => format!("{refusal} {} {}\n", pair.first, pair.second),
        Said::Reply(_) if call == Call::Check => format!("{refusal}\n"),
        Said::Reply(reply) => {
            let sum = buffer
                .iter()
                .fold(0, |sum, byte| (sum * 31 + u64::from(*byte)) % 1_000_003);
            format!("{refusal} {} {sum}\n", reply.length)
        }
    }
}

/// Judges the values of standard input, and says where what is found is another
/// thing than what is stored. False where that is so, or where a line is not
/// spelled as it should be.
pub fn judge_all() -> bool {
    let mut text = String::new();
    if std::io::stdin().read_to_string(&mut text).is_err() {
        return false;
    }
    let (mut values, mut passed, mut failed) = (Values::default(), 0, 0);
    for (at, line) in text.lines().enumerate() {
        match (change(&mut values, line), due(line)) {
            (Some(()), _) => (),
            (None, Some(due)) if values::judge(&values) == due => passed += 1,
            _ => {
                let found = values::judge(&values);
                println!("error: line {}: {line}: {found:?}", at + 1);
                failed += 1;
            }
        }
    }
    println!("{passed} passed, {failed} failed");
    failed == 0 && passed > 0
}

/// What a stored line finds due.
fn due(line: &str) -> Option<Finding> {
    let numbers = line.strip_prefix("judge = ")?;
    let [reason, place] = numbers_of(numbers)?;
    Some(Finding { reason, place })
}

fn numbers_of<const COUNT: usize>(words: &str) -> Option<[u32; COUNT]> {
    let numbers = words.split(' ').map(|word| word.parse().ok());
    numbers.collect::<Option<Vec<u32>>>()?.try_into().ok()
}

/// Puts the same at so many places from one on, which is counted from 1.
fn put<T: Copy + Default>(list: &mut Vec<T>, from: u32, times: u32, new: T) {
    let end = (from + times) as usize - 1;
    list.resize(list.len().max(end), T::default());
    list[from as usize - 1..end].fill(new);
}

/// What a line says of the values; None where it says nothing of them.
fn change(values: &mut Values, line: &str) -> Option<()> {
    let (word, rest) = line.split_once(' ')?;
    match word {
        "#" => (),
        "ring" => *values = fresh(rest)?,
        "family" => [values.family] = numbers_of(rest)?,
        "row" => put_row(values, rest)?,
        "link" => put_link(values, rest)?,
        "counts" => {
            let [rows, links] = numbers_of(rest)?;
            values.rows.resize(rows as usize, HeldRow::default());
            values.links.resize(links as usize, HeldLink::default());
        }
        "cut" => [values.g, values.h, values.across] = numbers_of(rest)?,
        "last" => [values.peak, values.size] = numbers_of(rest)?,
        _ => return None,
    }
    Some(())
}

/// Those of a ring, all others 0.
fn fresh(numbers: &str) -> Option<Values> {
    let [n, fibres] = numbers_of(numbers)?;
    Some(Values {
        n,
        fibres,
        ..Values::default()
    })
}

fn put_row(values: &mut Values, numbers: &str) -> Option<()> {
    let [from, times, first, second, amount, front, back, way] = numbers_of(numbers)?;
    let row = HeldRow {
        first,
        second,
        amount,
        front,
        back,
        way,
    };
    put(&mut values.rows, from, times, row);
    Some(())
}

fn put_link(values: &mut Values, numbers: &str) -> Option<()> {
    let [from, times, link, split, unsplit] = numbers_of(numbers)?;
    let link = HeldLink {
        link,
        split,
        unsplit,
    };
    put(&mut values.links, from, times, link);
    Some(())
}

/// Sends the circuits of the stored tables one turn at a time.
pub fn turn_all() -> bool {
    send_all("turn ", turn, TurnReply::of)
}

/// Sends them by the rule that comes to the least peak.
pub fn least_all() -> bool {
    send_all("least ", least, LeastReply::of)
}

/// Sends the circuits of the tables of standard input, each behind a line that begins with
/// that word, by a call whose reply is made of its numbers.
fn send_all<R: PartialEq + Debug>(
    word: &str,
    send: fn(&[u8], &mut [u8]) -> R,
    of: fn([u32; 7]) -> R,
) -> bool {
    hold_all(|rest| {
        let (due, ways, text, after) = next_table(word, rest)?;
        let mut lent = [PATTERN; WAYS];
        let (reply, due) = (send(text, &mut lent), of(due));
        let held = held(text, reply == due && lent == ways, &reply, &due);
        Some((held, after))
    })
}

/// Says of the tables of standard input whether their circuits cross, and where they do what
/// the peaks are.
pub fn cross_all() -> bool {
    hold_all(|rest| {
        let (due, text, after) = next_crossing(rest)?;
        let reply = ask(text);
        let answer = (reply, peaks(text, reply));
        Some((held(text, answer == due, &answer, &due), after))
    })
}

/// Where a table is answered otherwise than it should be, the two answers.
fn held<A: Debug>(text: &[u8], good: bool, answer: &A, due: &A) -> Result<(), String> {
    let text = String::from_utf8_lossy(text);
    good.then_some(())
        .ok_or_else(|| format!("{text}: {answer:?}, not {due:?}"))
}

/// Answers the tables of standard input, one after the other, and says where the answer is
/// another than what is stored. False where that is so, or where a case is not spelled as
/// it should be. Of a table it is told whether it is answered well, and what follows it.
fn hold_all(next: impl Fn(&[u8]) -> Option<(Result<(), String>, &[u8])>) -> bool {
    let mut cases = Vec::new();
    if std::io::stdin().read_to_end(&mut cases).is_err() {
        return false;
    }
    let (mut rest, mut passed, mut failed) = (cases.as_slice(), 0, 0);
    while let Some((held, after)) = next(rest) {
        match held {
            Ok(()) => passed += 1,
            Err(wrong) => {
                println!("error: {wrong}");
                failed += 1;
            }
        }
        rest = after;
    }
    let left = rest.len();
    println!("{passed} passed, {failed} failed, {left} bytes left");
    left == 0 && failed == 0 && passed > 0
}

/// The first line of these bytes, and what follows.
fn next_line(cases: &[u8]) -> Option<(&str, &[u8])> {
    let end = cases.iter().position(|byte| *byte == b'\n')?;
    let line = std::str::from_utf8(&cases[..end]).ok()?;
    Some((line, &cases[end + 1..]))
}

/// The next table: the numbers of the answer and the ways that are due, its text, and what
/// follows.
type NextTable<'a> = ([u32; 7], [u8; WAYS], &'a [u8], &'a [u8]);

fn next_table<'a>(word: &str, cases: &'a [u8]) -> Option<NextTable<'a>> {
    let (line, rest) = next_line(cases)?;
    let (numbers, letters) = line.strip_prefix(word)?.rsplit_once(' ')?;
    let [length, reply @ ..]: [u32; 8] = numbers_of(numbers)?;
    let (text, after) = rest.split_at_checked(length as usize)?;
    let mut ways = [PATTERN; WAYS];
    for (way, letter) in ways.iter_mut().zip(letters.trim_matches('-').bytes()) {
        *way = u8::from(letter == b'B');
    }
    Some((reply, ways, text, after))
}

/// Where all cross, the peaks of rule D and of the best choice; else 0. Rows of amount 0 add
/// nothing to any load.
fn peaks(text: &[u8], reply: CrossingReply) -> [i64; 2] {
    match table::read(text) {
        Ok(mut table) if reply.kind == ALL_CROSS => {
            table.rows.retain(|row| row.amount > 0);
            let best = |table: &Table| choice::plan(table).map_or(0, |plan| plan.peak);
            [rules::plan(&table).peak, best(&table)]
        }
        _ => [0, 0],
    }
}

/// The next table: the answer and the two peaks that are due, its text, and what follows.
type NextCrossing<'a> = ((CrossingReply, [i64; 2]), &'a [u8], &'a [u8]);

fn next_crossing(cases: &[u8]) -> Option<NextCrossing<'_>> {
    let (line, rest) = next_line(cases)?;
    let [length, reply @ .., rule_d, best]: [u32; 10] =
        numbers_of(line.strip_prefix("crossing ")?)?;
    let (text, after) = rest.split_at_checked(length as usize)?;
    let peaks = [rule_d, best].map(i64::from);
    Some(((CrossingReply::of(reply), peaks), text, after))
}
