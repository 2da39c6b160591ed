//! Faults of the working table: the stand-in with another way in one place. What
//! mutant.rs lists last.

use crate::limits::{AMOUNT, OFFICES};
use crate::mutant::{working, Mutant};
use crate::rules::Cut;
use crate::table::{Row, Table};
use crate::twin::{self, Answer, Reply};
use crate::working::{row, Ask, CallReason, CallReasons, WorkReply, Working, PLACES};
use crate::working::{CALL_REASONS, FIBRES, NOT_BELOW, NO_PLACE, NO_ROW, OFF_RING};
use crate::working::{RING_SIZE, TOO_MUCH};
use crate::working_stand_in::{add_new, cuts, first_largest, keep, largest};
use crate::working_stand_in::{Habits, Kept, SOUND};

/// Ties go to the smallest h, then the smallest g.
fn smallest_h(kept: &Kept) -> Cut {
    let most = first_largest(kept).across;
    let of_most = cuts()
        .zip(&kept.across)
        .filter(|(_, across)| **across == most);
    let on_ring = of_most
        .map(|(cut, _)| cut)
        .filter(|(_, h)| *h <= kept.table.n);
    let (g, h) = on_ring.min_by_key(|(g, h)| (*h, *g)).expect("the largest");
    let across = most;
    Cut { g, h, across }
}

/// Adds at a place that another rule names.
fn adding(kept: &mut Kept, ask: &Ask, free: fn(&Working) -> Option<u32>) -> u32 {
    match (*ask, free(&kept.table)) {
        (Ask::Add(wanted), Some(place)) => {
            kept.share(Some(row(wanted)), 1);
            kept.set(place, Some(row(wanted)))
        }
        _ => keep(kept, ask),
    }
}

fn highest_free(table: &Working) -> Option<u32> {
    let mut places = (1..=PLACES as u32).rev();
    places.find(|place| table.at(*place).is_none())
}

/// The place behind the last row, while there is one.
fn behind_last(table: &Working) -> Option<u32> {
    let behind = table.taken().last().map_or(1, |last| last + 1);
    (behind <= PLACES as u32).then_some(behind)
}

/// A change that goes to the lowest free place, as an addition does.
fn moving(kept: &mut Kept, ask: &Ask) -> u32 {
    match *ask {
        Ask::Change(place, wanted) => {
            keep(kept, &Ask::Remove(place));
            keep(kept, &Ask::Add(wanted))
        }
        _ => keep(kept, ask),
    }
}

/// A change of the amount alone.
fn amount_alone(kept: &mut Kept, ask: &Ask) -> u32 {
    match *ask {
        Ask::Change(place, [.., d]) => {
            let old = kept.table.at(place).expect("22 has been asked before");
            keep(
                kept,
                &Ask::Change(place, [old.first as u32, old.second as u32, d]),
            )
        }
        _ => keep(kept, ask),
    }
}

/// Calls of one kind leave the old row's share in the numbers.
fn left_on(kept: &mut Kept, ask: &Ask, kind: fn(&Ask) -> bool) -> u32 {
    if kind(ask) {
        add_new(kept, ask)
    } else {
        keep(kept, ask)
    }
}

/// A later start that leaves some of the old table, where calls have made it.
fn starting(kept: &mut Kept, ask: &Ask, keep_rows: bool) -> u32 {
    let (rows, across) = (kept.table.places.clone(), kept.across.clone());
    let later = (1..=OFFICES).contains(&kept.cut.g);
    let place = keep(kept, ask);
    match ask {
        Ask::Start(_) if later && keep_rows => kept.table.places = rows,
        Ask::Start(_) if later => kept.across = across,
        _ => (),
    }
    place
}

fn narrow(ask: Ask, place: u32, node: u32, amount: u32) -> Ask {
    let row = |[i, j, d]: [u32; 3]| [i & node, j & node, d & amount];
    match ask {
        Ask::Add(wanted) => Ask::Add(row(wanted)),
        Ask::Change(at, wanted) => Ask::Change(at & place, row(wanted)),
        Ask::Remove(at) => Ask::Remove(at & place),
        Ask::Row(at) => Ask::Row(at & place),
        ask => ask,
    }
}

/// Rows in another order than by nodes, then by place.
fn ordered(table: &Working, key: fn(usize, &Row) -> (i64, i64, i64)) -> Table {
    let held = table.held();
    let mut placed: Vec<(usize, Row)> = held.rows.iter().copied().enumerate().collect();
    placed.sort_by_key(|(place, row)| key(*place, row));
    Table {
        rows: placed.into_iter().map(|(_, row)| row).collect(),
        ..held
    }
}

fn without_zeros(table: &Working) -> Table {
    let mut table = table.by_nodes();
    table.rows.retain(|row| row.amount > 0);
    table
}

/// 15 writes what fits.
fn what_fits(answer: &Answer, buffer: &mut [u8]) -> Reply {
    let reply = twin::reply(answer, buffer);
    if let (15, Ok(granted)) = (reply.reason, answer) {
        let length = buffer.len();
        buffer.copy_from_slice(&granted.text[..length]);
    }
    reply
}

/// 15 at exactly the need.
fn one_more(answer: &Answer, buffer: &mut [u8]) -> Reply {
    let need = answer.as_ref().map_or(0, |granted| granted.text.len());
    if need == buffer.len() {
        return twin::reply(answer, &mut []);
    }
    twin::reply(answer, buffer)
}

const fn asking(reasons: CallReasons) -> Habits {
    Habits { reasons, ..SOUND }
}

const fn added(add: &'static [CallReason]) -> Habits {
    asking(CallReasons {
        add,
        ..CALL_REASONS
    })
}

const fn changed(change: &'static [CallReason]) -> Habits {
    asking(CallReasons {
        change,
        ..CALL_REASONS
    })
}

const fn started(start: &'static [CallReason]) -> Habits {
    asking(CallReasons {
        start,
        ..CALL_REASONS
    })
}

pub const fn altering(alter: fn(&mut Kept, &Ask) -> u32) -> Habits {
    Habits { alter, ..SOUND }
}

const fn cutting(cut: fn(&Kept) -> Cut) -> Habits {
    Habits { cut, ..SOUND }
}

pub const fn hearing(hear: fn(Ask) -> Ask) -> Habits {
    Habits { hear, ..SOUND }
}

pub const fn ordering(order: fn(&Working) -> Table) -> Habits {
    Habits { order, ..SOUND }
}

const fn saying(say: fn(&Ask, WorkReply) -> WorkReply) -> Habits {
    Habits { say, ..SOUND }
}

const fn writing(write: fn(&Answer, &mut [u8]) -> Reply) -> Habits {
    Habits { write, ..SOUND }
}

const FULL_EARLY: CallReason = (21, |table, _, _| table.taken().len() >= PLACES - 1);
const TOO_MUCH_LATE: CallReason = (7, |_, _, row| row[2] > AMOUNT + 1);
const TWO_OFFICES: CallReason = (3, |_, _, ring| ring[0] < 3 || ring[0] > 64);
const MORE_OFFICES: CallReason = (3, |_, _, ring| ring[0] < 2 || ring[0] > 65);
const NO_ROW_OF_0: CallReason = (22, |table, place, _| {
    table.at(place).is_none_or(|row| row.amount == 0)
});

/// Comes to the same.
pub const BY_H: Habits = cutting(smallest_h);

pub static WORKING_FAULTS: [Mutant; 39] = [
    working(
        "working: the highest free place",
        altering(|kept, ask| adding(kept, ask, highest_free)),
    ),
    working(
        "working: a removed place not used again",
        altering(|kept, ask| adding(kept, ask, behind_last)),
    ),
    working(
        "working: a change moves to the lowest free place",
        altering(moving),
    ),
    working(
        "working: a change of the amount alone",
        altering(amount_alone),
    ),
    working(
        "working: the old row's share not taken off",
        altering(|kept, ask| left_on(kept, ask, |ask| matches!(ask, Ask::Change(..)))),
    ),
    working(
        "working: a removed row's share not taken off",
        altering(|kept, ask| left_on(kept, ask, |ask| matches!(ask, Ask::Remove(_)))),
    ),
    working(
        "working: a later start keeps the rows",
        altering(|kept, ask| starting(kept, ask, true)),
    ),
    working(
        "working: a later start keeps the numbers",
        altering(|kept, ask| starting(kept, ask, false)),
    ),
    working(
        "working: the last of equal cuts",
        cutting(|kept| largest(kept, |across, best| across >= best)),
    ),
    working(
        "working: the old cut while it is as large",
        cutting(|kept| {
            let best = first_largest(kept);
            let there = |cut: Cut| cuts().position(|at| at == (cut.g, cut.h));
            let number = there(kept.cut).map(|at| kept.across[at]);
            if number == Some(best.across) && kept.cut.h <= kept.table.n {
                return Cut {
                    across: best.across,
                    ..kept.cut
                };
            }
            best
        }),
    ),
    working(
        "working: the largest never falls",
        cutting(|kept| {
            let best = first_largest(kept);
            if kept.table.taken().is_empty() || best.across >= kept.cut.across {
                return best;
            }
            kept.cut
        }),
    ),
    working(
        "working: cuts with link n left out",
        cutting(|kept| {
            let mut fewer = Kept {
                table: kept.table.clone(),
                across: kept.across.clone(),
                cut: kept.cut,
            };
            fewer.table.n = (kept.table.n - 1).max(2);
            first_largest(&fewer)
        }),
    ),
    working(
        "working: 21 before 7",
        added(&[OFF_RING, NOT_BELOW, NO_PLACE, TOO_MUCH]),
    ),
    working(
        "working: 21 before 4",
        added(&[NO_PLACE, OFF_RING, NOT_BELOW, TOO_MUCH]),
    ),
    working(
        "working: 21 at 1,023 rows",
        added(&[OFF_RING, NOT_BELOW, TOO_MUCH, FULL_EARLY]),
    ),
    working(
        "working: adding, 5 before 4",
        added(&[NOT_BELOW, OFF_RING, TOO_MUCH, NO_PLACE]),
    ),
    working(
        "working: adding, 7 before 5",
        added(&[OFF_RING, TOO_MUCH, NOT_BELOW, NO_PLACE]),
    ),
    working(
        "working: adding, 10,000 taken",
        added(&[OFF_RING, NOT_BELOW, TOO_MUCH_LATE, NO_PLACE]),
    ),
    working(
        "working: 22 after 4",
        changed(&[OFF_RING, NO_ROW, NOT_BELOW, TOO_MUCH]),
    ),
    working(
        "working: 22 after 7",
        changed(&[OFF_RING, NOT_BELOW, TOO_MUCH, NO_ROW]),
    ),
    working(
        "working: changing, 5 before 4",
        changed(&[NO_ROW, NOT_BELOW, OFF_RING, TOO_MUCH]),
    ),
    working(
        "working: changing, 7 before 5",
        changed(&[NO_ROW, OFF_RING, TOO_MUCH, NOT_BELOW]),
    ),
    working(
        "working: changing, 10,000 taken",
        changed(&[NO_ROW, OFF_RING, NOT_BELOW, TOO_MUCH_LATE]),
    ),
    working(
        "working: a row of amount 0 cannot be changed",
        changed(&[NO_ROW_OF_0, OFF_RING, NOT_BELOW, TOO_MUCH]),
    ),
    working("working: 20 before 3", started(&[FIBRES, RING_SIZE])),
    working("working: 20 never", started(&[RING_SIZE])),
    working(
        "working: two offices refused",
        started(&[TWO_OFFICES, FIBRES]),
    ),
    working(
        "working: 65 offices taken",
        started(&[MORE_OFFICES, FIBRES]),
    ),
    working(
        "working: places in 16 bits",
        hearing(|ask| narrow(ask, 0xffff, !0, !0)),
    ),
    working(
        "working: nodes in 8 bits",
        hearing(|ask| narrow(ask, !0, 0xff, !0)),
    ),
    working(
        "working: amounts in 16 bits",
        hearing(|ask| narrow(ask, !0, !0, 0xffff)),
    ),
    working(
        "working: rows written by place alone",
        ordering(Working::held),
    ),
    working(
        "working: rows written by nodes, then the later place",
        ordering(|table| ordered(table, |at, row| (row.first, row.second, -(at as i64)))),
    ),
    working(
        "working: rows written by nodes, then by amount",
        ordering(|table| ordered(table, |_, row| (row.first, row.second, row.amount))),
    ),
    working(
        "working: rows of amount 0 left out",
        ordering(without_zeros),
    ),
    working("working: 15 writes what fits", writing(what_fits)),
    working("working: 15 at exactly the need", writing(one_more)),
    working(
        "working: a refusal names the place",
        saying(|ask, reply| match *ask {
            Ask::Change(place, _) if reply.reason > 0 => WorkReply { place, ..reply },
            _ => reply,
        }),
    ),
    working(
        "working: a refusal touches the table",
        Habits {
            refused: |kept| kept.across[0] ^= 1,
            ..SOUND
        },
    ),
];
