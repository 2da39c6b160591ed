//! The comparison: reply and every byte of the buffer, for one call or a case.

use crate::kit::Kit;
use crate::limits::TEXT;
use crate::twin::{self, Answer, Call, Said};

/// Bytes on both sides of the lent buffer that no call may change.
pub const GUARD: usize = 32;
/// As long as a text may be: more than any table, sheet or matrix needs.
pub const ROOM: usize = TEXT;

/// The length of the lent buffer.
#[derive(Clone, Copy, Debug)]
pub enum Lend {
    Exactly(usize),
    /// The length of the text to be written and so many more (or fewer). A
    /// refused text needs nothing: its lengths lie around 40.
    Need(i64),
}

/// For a call that lends no buffer.
pub const NONE: Lend = Lend::Exactly(0);

impl Lend {
    pub fn length(self, answer: &Answer) -> usize {
        let need = answer.as_ref().map_or(40, |granted| granted.text.len());
        match self {
            Lend::Exactly(length) => length,
            Lend::Need(more) => (need as i64 + more).max(0) as usize,
        }
    }
}

/// A text and the calls that are made with it.
pub struct Case {
    /// The offices of the table or sheet that the text was made from.
    pub offices: i64,
    pub text: Vec<u8>,
    pub trials: Vec<(Call, Lend)>,
}

/// One call on which the two differ.
pub struct Mismatch {
    pub call: Call,
    pub lend: Lend,
    pub length: usize,
    pub twin: Said,
    pub kit: Said,
    /// Place in the buffer, what the twin has there, what the library has.
    pub byte: Option<(i64, Vec<u8>, Vec<u8>)>,
    pub text_changed: bool,
}

/// The pattern that fills the buffer before a call.
pub fn pattern(length: usize, salt: u64) -> Vec<u8> {
    let mut bytes = Vec::with_capacity(length);
    for at in 0..length as u64 {
        let mixed = (at + 1).wrapping_mul(salt.wrapping_mul(2) + 0x9e37_79b9_7f4a_7c15);
        bytes.push((mixed >> 56) as u8);
    }
    bytes
}

/// Bytes as words of 4, the lowest first.
pub fn words_of(bytes: &[u8]) -> Vec<u32> {
    let fours = bytes.chunks_exact(4);
    let words = fours.map(|four| u32::from_le_bytes([four[0], four[1], four[2], four[3]]));
    words.collect()
}

/// Makes one call both ways. The reply when they agree.
pub fn compare(
    kit: Kit,
    (call, lend): (Call, Lend),
    text: &[u8],
    answer: &Answer,
    salt: u64,
) -> Result<Said, Box<Mismatch>> {
    let length = lend.length(answer);
    let lent = GUARD..GUARD + length;
    let mut expected = pattern(length + 2 * GUARD, salt);
    let mut got = expected.clone();
    let mut handed = text.to_vec();
    let by_twin = twin::say(call, answer, &mut expected[lent.clone()]);
    let by_kit = kit.call(call, &mut handed, &mut got, lent);
    if by_twin == by_kit && expected == got && handed == text {
        return Ok(by_twin);
    }
    Err(Box::new(Mismatch {
        call,
        lend,
        length,
        twin: by_twin,
        kit: by_kit,
        byte: first_difference(&expected, &got),
        text_changed: handed != text,
    }))
}

/// The first byte that differs, with a few bytes around it on both sides.
fn first_difference(expected: &[u8], got: &[u8]) -> Option<(i64, Vec<u8>, Vec<u8>)> {
    let at = (0..expected.len()).find(|at| expected[*at] != got[*at])?;
    let from = at.saturating_sub(16).max(GUARD.min(at));
    let to = (at + 24).min(expected.len());
    let place = at as i64 - GUARD as i64;
    Some((place, expected[from..to].to_vec(), got[from..to].to_vec()))
}

/// Fewer of a list's items on which the two still differ, and how; None where none can
/// be left out. They are left out behind so many first ones, many at a time and then
/// one by one, with a limit on the tries.
pub fn fewer<T: Clone, D>(
    mut items: Vec<T>,
    kept: usize,
    differs: impl Fn(&[T]) -> Option<D>,
) -> (Vec<T>, Option<D>) {
    let (mut least, mut chunk, mut tries) = (None, items.len() / 2, 0);
    while chunk > 0 {
        let mut at = kept;
        while at < items.len() && tries < 600 {
            tries += 1;
            let end = (at + chunk).min(items.len());
            let tried = [&items[..at], &items[end..]].concat();
            match differs(&tried) {
                None => at = end,
                differing => (items, least) = (tried, differing),
            }
        }
        chunk /= 2;
    }
    (items, least)
}

/// A smaller text on which the same call still differs. The buffer is large where that
/// shows a difference too.
pub fn shrink(kit: Kit, text: &[u8], found: Box<Mismatch>) -> (Vec<u8>, Box<Mismatch>) {
    let differs = |lines: &[&[u8]], lend| {
        let text = lines.concat();
        let answer = twin::answer(found.call, &text);
        compare(kit, (found.call, lend), &text, &answer, 7).err()
    };
    let split = text.split_inclusive(|byte| *byte == b'\n');
    let lines: Vec<&[u8]> = split.collect();
    let roomy = differs(&lines, Lend::Need(5_000));
    let lend = roomy.as_ref().map_or(found.lend, |roomy| roomy.lend);
    let (lines, least) = fewer(lines, 1, |lines| differs(lines, lend));
    (lines.concat(), least.or(roomy).unwrap_or(found))
}

/// What a call writes, or what it says where it writes nothing.
pub fn written(kit: Kit, call: Call, text: &[u8]) -> Result<Vec<u8>, String> {
    let (mut handed, mut area) = (text.to_vec(), vec![0; ROOM]);
    match kit.call(call, &mut handed, &mut area, 0..ROOM) {
        Said::Reply(reply) if reply.reason == 0 => Ok(area[..reply.length].to_vec()),
        said => Err(format!("{call:?}: {said:?}\n{}", shown(text, 40))),
    }
}

/// A text with tabs shown as |, and bytes that do not print as \xNN.
pub fn shown(text: &[u8], lines: usize) -> String {
    let mut shown = String::new();
    let mut ends = 0;
    for (at, byte) in text.iter().enumerate() {
        if ends == lines || shown.len() > 6_000 {
            shown.push_str(&format!("... ({} bytes more)\n", text.len() - at));
            return shown;
        }
        match byte {
            b'\t' => shown.push('|'),
            b'\n' => {
                shown.push('\n');
                ends += 1;
            }
            b' '..=b'~' => shown.push(*byte as char),
            _ => shown.push_str(&format!("\\x{byte:02x}")),
        }
    }
    shown
}

/// A mismatch in words.
pub fn describe(text: &[u8], mismatch: &Mismatch) -> String {
    let mut words = format!(
        "  call {:?}, buffer of {} bytes ({:?}), text of {} bytes:\n",
        mismatch.call,
        mismatch.length,
        mismatch.lend,
        text.len()
    );
    for line in shown(text, 40).lines() {
        words.push_str(&format!("    {line}\n"));
    }
    words.push_str(&format!("  twin:    {:?}\n", mismatch.twin));
    words.push_str(&format!("  library: {:?}\n", mismatch.kit));
    if let Some((place, twin, kit)) = &mismatch.byte {
        let line = |bytes: &[u8]| shown(bytes, 99).replace('\n', "\\n");
        words.push_str(&format!("  first differing byte of the buffer: {place}\n"));
        words.push_str(&format!("    twin:    {}\n", line(twin)));
        words.push_str(&format!("    library: {}\n", line(kit)));
    }
    if mismatch.text_changed {
        words.push_str("  the call changed the text\n");
    }
    words
}
