//! A working table that stands in for the library, with one fault or with none.
//! It keeps what it knows in the lent words: the across number of every cut, the
//! ring, the last cut and the places, so that faults of keeping can be tried.

use crate::family::Family;
use crate::limits::OFFICES;
use crate::rules::{front_holds, Cut};
use crate::sheet::table_text;
use crate::table::{Row, Table};
use crate::twin::{self, Answer, Reply};
use crate::working::{Ask, CallReasons, Told, WorkReply, Working, CALL_REASONS};
use crate::working_compare::{CUTS, GUARD_WORDS, OTHERS};

/// A table with the numbers kept beside it.
pub struct Kept {
    pub table: Working,
    /// By g, then h.
    pub across: Vec<i64>,
    pub cut: Cut,
}

/// What is done in each place of a call: a fault is another way in one of them.
#[derive(Clone, Copy)]
pub struct Habits {
    pub hear: fn(Ask) -> Ask,
    pub reasons: CallReasons,
    pub alter: fn(&mut Kept, &Ask) -> u32,
    pub cut: fn(&Kept) -> Cut,
    pub refused: fn(&mut Kept),
    pub say: fn(&Ask, WorkReply) -> WorkReply,
    pub order: fn(&Working) -> Table,
    pub write: fn(&Answer, &mut [u8]) -> Reply,
}

pub const SOUND: Habits = Habits {
    hear: |ask| ask,
    reasons: CALL_REASONS,
    alter: keep,
    cut: first_largest,
    refused: |_| (),
    say: |_, reply| reply,
    order: Working::by_nodes,
    write: twin::reply,
};

/// All cuts of the largest ring, those of a smaller one among them.
pub fn cuts() -> impl Iterator<Item = (i64, i64)> {
    (1..=OFFICES).flat_map(|g| (g + 1..=OFFICES).map(move |h| (g, h)))
}

impl Kept {
    fn read(words: &[u32]) -> Kept {
        let number = |at: usize| i64::from(words[CUTS + at]);
        let family = Family::told(words[CUTS + 2]);
        let mut table = Working::fresh(number(0).clamp(2, OFFICES), number(1), family);
        for (place, word) in table.places.iter_mut().zip(&words[CUTS + OTHERS..]) {
            let [i, j, low, high] = word.to_le_bytes();
            let d = i64::from(u16::from_le_bytes([low, high]));
            let (i, j) = (i64::from(i), i64::from(j));
            *place = (i > 0).then_some(Row::of(i, j, d));
        }
        Kept {
            table,
            across: words[..CUTS].iter().map(|word| i64::from(*word)).collect(),
            cut: Cut {
                g: number(3),
                h: number(4),
                across: number(5),
            },
        }
    }

    fn write(&self, words: &mut [u32]) {
        let (table, cut) = (&self.table, self.cut);
        for (word, across) in words.iter_mut().zip(&self.across) {
            *word = *across as u32;
        }
        let family = i64::from(table.family.number());
        let numbers = [table.n, table.fibres, family, cut.g, cut.h, cut.across];
        for (word, number) in words[CUTS..].iter_mut().zip(numbers) {
            *word = number as u32;
        }
        for (word, place) in words[CUTS + OTHERS..].iter_mut().zip(&table.places) {
            *word = place.map_or(0, |row| {
                let [low, high] = (row.amount as u16).to_le_bytes();
                u32::from_le_bytes([row.first as u8, row.second as u8, low, high])
            });
        }
    }

    /// Adds a row's share to every cut that it goes across, `times` over.
    pub fn share(&mut self, row: Option<Row>, times: i64) {
        let Some(row) = row else { return };
        for (number, (g, h)) in self.across.iter_mut().zip(cuts()) {
            if front_holds(&row, g) != front_holds(&row, h) {
                *number = (*number + times * row.amount).rem_euclid(1 << 32);
            }
        }
    }

    pub fn set(&mut self, place: u32, row: Option<Row>) -> u32 {
        self.table.set(place, row);
        place
    }
}

/// One call on the words between those that are not lent.
pub fn stand_in(habits: &Habits, ask: &Ask, words: &mut [u32], buffer: &mut [u8]) -> Told {
    let end = words.len() - GUARD_WORDS;
    let words = &mut words[GUARD_WORDS..end];
    let mut kept = Kept::read(words);
    let heard = (habits.hear)(*ask);
    match heard {
        Ask::Row(place) => return Told::Row(kept.table.row_reply(place)),
        Ask::Write(_) => {
            let text = table_text(&(habits.order)(&kept.table));
            return Told::Text((habits.write)(&Ok(twin::written(text)), buffer));
        }
        _ => (),
    }
    let told = match kept.table.reason(&heard, &habits.reasons) {
        0 => {
            let place = (habits.alter)(&mut kept, &heard);
            kept.cut = (habits.cut)(&kept);
            kept.write(words);
            Told::kept(place, kept.cut)
        }
        reason => {
            let before = (kept.table.clone(), kept.across.clone());
            (habits.refused)(&mut kept);
            // Bytes that no calls made are not what they would be written as.
            if before != (kept.table.clone(), kept.across.clone()) {
                kept.write(words);
            }
            Told::refused(reason)
        }
    };
    match told {
        Told::Work(reply) => Told::Work((habits.say)(ask, reply)),
        told => told,
    }
}

/// A call takes the old row's share off, and adds the new one's.
pub fn keep(kept: &mut Kept, ask: &Ask) -> u32 {
    let old = match *ask {
        Ask::Start(_) => {
            kept.across = vec![0; CUTS];
            None
        }
        Ask::Change(place, _) | Ask::Remove(place) => kept.table.at(place),
        _ => None,
    };
    kept.share(old, -1);
    add_new(kept, ask)
}

/// The new row, and its share, with nothing taken off.
pub fn add_new(kept: &mut Kept, ask: &Ask) -> u32 {
    let place = kept.table.alter(ask);
    let new = kept.table.at(place);
    kept.share(new, 1);
    place
}

pub fn largest(kept: &Kept, better: fn(i64, i64) -> bool) -> Cut {
    let mut best: Option<Cut> = None;
    for ((g, h), across) in cuts().zip(&kept.across) {
        let across = *across;
        if h <= kept.table.n && best.is_none_or(|cut| better(across, cut.across)) {
            best = Some(Cut { g, h, across });
        }
    }
    best.expect("a ring of 2 nodes or more has a cut")
}

pub fn first_largest(kept: &Kept) -> Cut {
    largest(kept, |across, best| across > best)
}
