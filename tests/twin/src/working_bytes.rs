//! Tables that no calls made: bytes at random, sound tables with some bytes
//! damaged, all zeros, all ones. No rule says more than that a call still ends with
//! one fixed answer, so every call is made twice on equal bytes, and must answer
//! and leave the same; a refused call changes nothing here too.

use crate::compare::{pattern, Lend, GUARD};
use crate::kit::Kit;
use crate::rng::Rng;
use crate::twin::Reply;
use crate::working::{Ask, Told, PLACES};
use crate::working_compare::{noise, Compared, Desk, GUARD_WORDS, WORDS};
use crate::working_groups::{bad, family, fibres, good};

/// What a call said and left.
#[derive(PartialEq)]
struct Left {
    told: Told,
    words: Vec<u32>,
    area: Vec<u8>,
}

fn made(kit: Kit, ask: &Ask, words: &[u32], area: &[u8]) -> Left {
    let (mut words, mut area) = (words.to_vec(), area.to_vec());
    let lent = GUARD..area.len() - GUARD;
    let told = kit.work(ask, &mut words, &mut area, lent);
    Left { told, words, area }
}

/// One call twice; the words as it leaves them.
fn twice(kit: Kit, ask: &Ask, words: Vec<u32>) -> Compared<Vec<u32>> {
    let length = match ask {
        Ask::Write(Lend::Exactly(length)) => *length,
        _ => 0,
    };
    let area = pattern(length + 2 * GUARD, 5);
    let left = made(kit, ask, &words, &area);
    let fault = if left != made(kit, ask, &words, &area) {
        "two calls on equal bytes differ"
    } else if !keeps(ask, &left, &words, &area) {
        "bytes that must stay have changed"
    } else {
        return Ok(left.words);
    };
    let bytes: Vec<String> = words.iter().map(|word| format!("{word:x}")).collect();
    let told = left.told;
    Err(format!(
        "{fault}: {ask:?}: {told:?}, on {}",
        bytes.join(" ")
    ))
}

/// A refusal and a call that only reads leave the table; what is not lent and
/// what stands behind a written text is left always.
fn keeps(ask: &Ask, left: &Left, words: &[u32], area: &[u8]) -> bool {
    let end = GUARD_WORDS + WORDS;
    let around = left.words[..GUARD_WORDS] == words[..GUARD_WORDS];
    let around = around && left.words[end..] == words[end..];
    let alters = ask.place() < 4 && left.told.reason() == 0;
    let written = match left.told {
        Told::Text(Reply { length, .. }) => length,
        _ => 0,
    };
    let behind = GUARD + written;
    let buffer = left.area[..GUARD] == area[..GUARD] && left.area[behind..] == area[behind..];
    around && buffer && (alters || left.words == words)
}

/// A table of one of the kinds.
fn table(desk: &Desk, rng: &mut Rng) -> Vec<u32> {
    let mut words = noise(rng.next());
    let lent = GUARD_WORDS..GUARD_WORDS + WORDS;
    match rng.below(6) {
        0 => (),
        1 => words[lent].fill(0),
        2 => words[lent].fill(u32::MAX),
        _ => {
            words = desk.words().to_vec();
            for _ in 0..rng.between(1, 40) {
                let at = lent.start + rng.below(WORDS);
                words[at] ^= rng.next() as u32 & rng.pick(&[0xff, 0xff00, 0x00ff_0000, !0]);
            }
        }
    }
    words
}

fn ask(rng: &mut Rng) -> Ask {
    let n = rng.between(2, 64) as u32;
    let place = match rng.below(6) {
        0 => rng.pick(&[0, PLACES as u32 + 1, u32::MAX]),
        _ => rng.between(1, PLACES as i64) as u32,
    };
    let wanted = if rng.chance(1, 6) {
        bad(rng, n)
    } else {
        good(rng, n)
    };
    match rng.below(8) {
        0 | 1 => Ask::Add(wanted),
        2 | 3 => Ask::Change(place, wanted),
        4 => Ask::Remove(place),
        5 => Ask::Row(place),
        6 => {
            let length = rng.pick(&[0, 7, 100, 9_000, 40_000]);
            Ask::Write(Lend::Exactly(length))
        }
        _ => Ask::Start([rng.pick(&[0, 65]), fibres(rng), family(rng)]),
    }
}

/// Some rows, then calls one after the other on such a table.
pub fn play(desk: &mut Desk, rng: &mut Rng) -> Compared<()> {
    let n = desk.table.n as u32;
    for _ in 0..rng.between(0, 60) {
        let row = good(rng, n);
        desk.ask(Ask::Add(row))?;
    }
    let mut words = table(desk, rng);
    for _ in 0..30 {
        words = twice(desk.kit(), &ask(rng), words)?;
        desk.tally.strange += 1;
    }
    Ok(())
}
