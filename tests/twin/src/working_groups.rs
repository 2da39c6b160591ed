//! The groups of sequences of calls of the working table: lists first, then
//! random sequences.

use crate::compare::Lend;
use crate::part::{group, Group};
use crate::rng::Rng;
use crate::working::{Ask, Asked, Wanted, Working, PLACES};
use crate::working_bytes;
use crate::working_compare::{Compared, Desk};

/// Sequences of calls, each on a table that has been started with the ring that `ring`
/// gives: as many as `cases` says.
pub struct Sequences {
    pub cases: u64,
    pub ring: Ring,
    pub play: Play,
}

type Ring = fn(&mut Rng, u64) -> Asked;
type Play = fn(&mut Desk, &mut Rng) -> Compared<()>;

pub const WORKING_GROUPS: [Group<Sequences>; 9] = [
    list("working: refusals and their ranks", 6, any_size, refusals),
    list("working: every place", 2, small_size, every_place),
    list("working: every buffer length", 2, any_size, every_length),
    random(
        "working: random calls, 2 to 15 offices",
        20,
        |rng, _| ring(rng, 2, 15),
        short,
    ),
    random(
        "working: random calls, 16 to 64 offices",
        24,
        |rng, _| ring(rng, 16, 64),
        short,
    ),
    random("working: equal cuts", 10, any_ring, equal_cuts),
    random(
        "working: long, on full tables of 20 offices",
        18,
        |rng, _| ring(rng, 20, 20),
        long,
    ),
    random(
        "working: long, on full tables of 64 offices",
        6,
        |rng, _| ring(rng, 64, 64),
        long,
    ),
    random(
        "working: tables of random bytes",
        10,
        any_ring,
        working_bytes::play,
    ),
];

const fn list(name: &'static str, cases: u64, ring: Ring, play: Play) -> Group<Sequences> {
    group(name, 0, Sequences { cases, ring, play })
}

const fn random(name: &'static str, share: u64, ring: Ring, play: Play) -> Group<Sequences> {
    let cases = u64::MAX;
    group(name, share, Sequences { cases, ring, play })
}

fn any_size(_: &mut Rng, case: u64) -> Asked {
    let (fibres, family) = told(case);
    [[64, 2, 20][case as usize % 3], fibres, family]
}

/// Fibres and family by number.
fn told(case: u64) -> (u32, u32) {
    ([2, 4][case as usize % 2], [0, 1, 1][case as usize % 3])
}

/// Of many calls on a full table the twin sums soonest on few offices.
fn small_size(_: &mut Rng, case: u64) -> Asked {
    let (fibres, family) = told(case);
    [[20, 2][case as usize % 2], fibres, family]
}

fn any_ring(rng: &mut Rng, _: u64) -> Asked {
    ring(rng, 2, 64)
}

/// A ring of so many offices that is taken.
fn ring(rng: &mut Rng, from: i64, to: i64) -> Asked {
    [rng.between(from, to) as u32, fibres(rng), family(rng)]
}

/// Half of the time SONET, else SDH, by any number.
pub fn family(rng: &mut Rng) -> u32 {
    rng.pick(&[0, 0, 0, 0, 1, 1, 2, 256, 65_536, u32::MAX])
}

pub fn fibres(rng: &mut Rng) -> u32 {
    rng.pick(&[2, 4])
}

fn nodes(rng: &mut Rng, n: u32) -> (u32, u32) {
    let one = rng.between(1, i64::from(n)) as u32;
    let other = rng.between(1, i64::from(n) - 1) as u32;
    let other = if other < one { other } else { other + 1 };
    (one.min(other), one.max(other))
}

/// A row that is taken.
pub fn good(rng: &mut Rng, n: u32) -> Wanted {
    let (first, second) = nodes(rng, n);
    let amount = match rng.below(8) {
        0 => 0,
        1 => 1,
        2 => 9_999,
        3 | 4 => rng.between(0, 9) as u32,
        _ => rng.between(0, 9_999) as u32,
    };
    [first, second, amount]
}

/// A row for which 4, 5 or 7 is given: each alone, two or all of them, and
/// numbers that would pass if their high bits were lost.
pub fn bad(rng: &mut Rng, n: u32) -> Wanted {
    let all = bad_rows(n, good(rng, n));
    all[rng.below(all.len())]
}

fn bad_rows(n: u32, [i, j, d]: Wanted) -> Vec<Wanted> {
    let most = u32::MAX;
    vec![
        [0, j, d],
        [0, 0, d],
        [i, n + 1, d],
        [n + 1, n + 2, d],
        [i, most, d],
        [most, j, d],
        [i + 256, j + 256, d],
        [i, j + 65_536, d],
        [n + 1, j, d],
        [j, i, d],
        [i, i, d],
        [i, j, 10_000],
        [i, j, most],
        [i, j, d + 65_536],
        [j, i, 10_000],
        [j, j, most],
        [j, 0, 10_000],
        [n + 1, i, most],
    ]
}

/// Places that hold no row, whatever the table: beyond it, and those that would
/// be within if their high bits were lost. A place that holds none may follow.
fn no_places(table: &Working) -> Vec<u32> {
    let last = PLACES as u32;
    let mut places = vec![
        0,
        last + 1,
        2_048,
        65_536 + 1,
        65_536 + last,
        u32::MAX,
        1 << 31,
    ];
    let free = (1..=last).filter(|place| table.at(*place).is_none());
    let free: Vec<u32> = free.collect();
    places.extend(free.first());
    places.extend(free.last());
    places.extend(free.get(free.len() / 2));
    places
}

const NO_RINGS: [(u32, u32); 16] = [
    (0, 4),
    (1, 2),
    (65, 4),
    (u32::MAX, 2),
    (256 + 4, 4),
    (65_536 + 4, 4),
    (1, 3),
    (65, 0),
    (0, u32::MAX),
    (2, 0),
    (64, 1),
    (20, 3),
    (4, 5),
    (4, 8),
    (4, 256 + 4),
    (4, u32::MAX),
];

const LENDS: [Lend; 6] = [
    Lend::Need(0),
    Lend::Need(-1),
    Lend::Need(1),
    Lend::Exactly(0),
    Lend::Exactly(20_000),
    Lend::Need(-5),
];

/// Every refusal on the table as it is.
fn all_refusals(desk: &mut Desk, rng: &mut Rng) -> Compared<()> {
    let n = desk.table.n as u32;
    let rows = bad_rows(n, good(rng, n));
    for row in &rows {
        desk.ask(Ask::Add(*row))?;
    }
    for place in no_places(&desk.table) {
        desk.ask(Ask::Remove(place))?;
        desk.ask(Ask::Row(place))?;
        desk.ask(Ask::Change(place, good(rng, n)))?;
        for row in &rows {
            desk.ask(Ask::Change(place, *row))?;
        }
    }
    for place in desk.table.taken().into_iter().take(2) {
        for row in &rows {
            desk.ask(Ask::Change(place, *row))?;
        }
    }
    for (n, fibres) in NO_RINGS {
        desk.ask(Ask::Start([n, fibres, family(rng)]))?;
    }
    for lend in LENDS {
        desk.ask(Ask::Write(lend))?;
    }
    Ok(())
}

fn fill(desk: &mut Desk, rng: &mut Rng, rows: usize) -> Compared<()> {
    for _ in 0..rows {
        let row = good(rng, desk.table.n as u32);
        desk.ask(Ask::Add(row))?;
    }
    Ok(())
}

/// On an empty table, on one with rows and with a removed place, on one with one
/// free place, on a full one, and on one that was started later.
fn refusals(desk: &mut Desk, rng: &mut Rng) -> Compared<()> {
    all_refusals(desk, rng)?;
    fill(desk, rng, 6)?;
    desk.ask(Ask::Remove(3))?;
    all_refusals(desk, rng)?;
    fill(desk, rng, PLACES - 6)?;
    all_refusals(desk, rng)?;
    fill(desk, rng, 1)?;
    all_refusals(desk, rng)?;
    let row = good(rng, desk.table.n as u32);
    desk.ask(Ask::Add(row))?;
    desk.ask(Ask::Start(ring(rng, 2, 64)))?;
    all_refusals(desk, rng)?;
    fill(desk, rng, 3)?;
    desk.all_rows()?;
    desk.routed()
}

/// Each place is removed from a full table, asked for and taken again.
fn every_place(desk: &mut Desk, rng: &mut Rng) -> Compared<()> {
    fill(desk, rng, PLACES)?;
    desk.all_rows()?;
    for place in 1..=PLACES as u32 {
        desk.ask(Ask::Remove(place))?;
        desk.ask(Ask::Remove(place))?;
        desk.ask(Ask::Row(place))?;
        fill(desk, rng, 1)?;
    }
    desk.all_rows()?;
    desk.routed()?;
    for place in (1..=PLACES as u32).rev() {
        desk.ask(Ask::Remove(place))?;
    }
    desk.all_rows()?;
    desk.routed()
}

/// Every length up to two more than the need of a few rows, two of them of the
/// same nodes, and the lengths about the need of more and of the most.
fn every_length(desk: &mut Desk, rng: &mut Rng) -> Compared<()> {
    let n = desk.table.n as u32;
    for row in [[1, n, 9_999], [1, 2, 5], [1, 2, 0], [1, 2, 4]] {
        desk.ask(Ask::Add(row))?;
    }
    for length in 0..60 {
        desk.ask(Ask::Write(Lend::Exactly(length)))?;
    }
    for more in -3..=3 {
        desk.ask(Ask::Write(Lend::Need(more)))?;
    }
    for _ in 0..6 {
        fill(desk, rng, PLACES / 6)?;
        for lend in LENDS {
            desk.ask(Ask::Write(lend))?;
        }
    }
    desk.routed()?;
    longest(desk)
}

/// The longest text there is, and the largest across number.
fn longest(desk: &mut Desk) -> Compared<()> {
    desk.ask(Ask::Start([64, 4, 1]))?;
    for _ in 0..PLACES {
        desk.ask(Ask::Add([63, 64, 9_999]))?;
    }
    for lend in LENDS {
        desk.ask(Ask::Write(lend))?;
    }
    desk.routed()
}

/// What is asked for most: so many times in 100 an addition, a change, a
/// removal; the rest looks at rows, writes and starts where it is refused.
#[derive(Clone, Copy)]
struct Mood(usize, usize, usize);

const MOODS: [Mood; 4] = [
    Mood(66, 16, 8),
    Mood(34, 28, 28),
    Mood(44, 24, 24),
    Mood(12, 24, 54),
];

/// Mostly a place that holds a row.
fn place(rng: &mut Rng, table: &Working) -> u32 {
    let taken = table.taken();
    if taken.is_empty() || rng.chance(1, 12) {
        return rng.pick(&no_places(table));
    }
    rng.pick(&taken)
}

fn next(rng: &mut Rng, table: &Working, mood: Mood) -> Ask {
    let n = table.n as u32;
    let Mood(add, change, remove) = mood;
    let wanted = if rng.chance(1, 8) {
        bad(rng, n)
    } else {
        good(rng, n)
    };
    match rng.below(100) {
        at if at < add => Ask::Add(wanted),
        at if at < add + change => Ask::Change(place(rng, table), wanted),
        at if at < add + change + remove => Ask::Remove(place(rng, table)),
        at if at < 96 => Ask::Row(place(rng, table)),
        at if at < 98 => Ask::Write(rng.pick(&LENDS)),
        _ => {
            let (n, fibres) = rng.pick(&NO_RINGS);
            Ask::Start([n, fibres, family(rng)])
        }
    }
}

/// Up to some hundred calls in changing moods, a later start among them now and
/// then, and all rows and the plan at the end.
fn short(desk: &mut Desk, rng: &mut Rng) -> Compared<()> {
    for _ in 0..rng.between(1, 5) {
        let mood = rng.pick(&MOODS);
        for _ in 0..rng.between(4, 90) {
            let ask = next(rng, &desk.table, mood);
            desk.ask(ask)?;
        }
        if rng.chance(1, 4) {
            desk.ask(Ask::Start(ring(rng, 2, 64)))?;
        }
    }
    if rng.chance(1, 6) {
        desk.all_rows()?;
    }
    desk.ask(Ask::Write(Lend::Need(-1)))?;
    desk.routed()
}

/// Amounts of 0 and 1, so that many cuts are equally large.
fn equal_cuts(desk: &mut Desk, rng: &mut Rng) -> Compared<()> {
    let n = desk.table.n as u32;
    for _ in 0..rng.between(10, 60) {
        let (first, second) = nodes(rng, n);
        let wanted = [first, second, rng.below(2) as u32];
        let ask = match (rng.below(4), desk.table.taken().as_slice()) {
            (0, [.., last]) => Ask::Remove(*last),
            (1, taken) if !taken.is_empty() => Ask::Change(rng.pick(taken), wanted),
            _ => Ask::Add(wanted),
        };
        desk.ask(ask)?;
    }
    desk.routed()
}

/// All places taken, then thousands of calls that leave them nearly so.
fn long(desk: &mut Desk, rng: &mut Rng) -> Compared<()> {
    fill(desk, rng, PLACES)?;
    for calls in 0..2_400 {
        let ask = next(rng, &desk.table, Mood(44, 24, 24));
        desk.ask(ask)?;
        if calls % 800 == 799 {
            desk.routed()?;
        }
    }
    desk.all_rows()
}
