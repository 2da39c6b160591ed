//! The working table in the plainest way: a list of 1,024 places, each
//! with a row or with none. Nothing is kept beside the rows: the cut is rule A's
//! over the rows held, summed afresh for every reply.

use crate::compare::Lend;
use crate::family::Family;
use crate::limits::ROWS;
use crate::rules::{self, Cut};
use crate::sheet::table_text;
use crate::table::{self, Row, Table};
use crate::twin::{self, Answer, Reply};

/// With so many places, counted from 1.
pub const PLACES: usize = ROWS;

/// A row as it is asked for: first node, second node, amount.
pub type Wanted = [u32; 3];

/// A ring as it is asked for: offices, fibres, and the number of the family.
pub type Asked = [u32; 3];

/// The calls of the working table.
#[derive(Clone, Copy, Debug)]
pub enum Ask {
    Start(Asked),
    Add(Wanted),
    Change(u32, Wanted),
    Remove(u32),
    Row(u32),
    Write(Lend),
}

pub const ASK_NAMES: [&str; 6] = [
    "WorkStart",
    "WorkAdd",
    "WorkChange",
    "WorkRemove",
    "WorkRow",
    "WorkWrite",
];

impl Ask {
    pub fn place(self) -> usize {
        match self {
            Ask::Start(_) => 0,
            Ask::Add(_) => 1,
            Ask::Change(..) => 2,
            Ask::Remove(_) => 3,
            Ask::Row(_) => 4,
            Ask::Write(_) => 5,
        }
    }

    /// The numbers that the call is told, 0 behind them.
    #[cfg(remote)]
    pub fn told(self) -> [u32; 4] {
        match self {
            Ask::Start([n, fibres, family]) => [n, fibres, family, 0],
            Ask::Add([first, second, amount]) => [first, second, amount, 0],
            Ask::Change(place, [first, second, amount]) => [place, first, second, amount],
            Ask::Remove(place) | Ask::Row(place) => [place, 0, 0, 0],
            Ask::Write(_) => [0; 4],
        }
    }
}

/// The reply of start, add, change and remove: all but the reason is 0 on a
/// refusal.
#[repr(C)]
#[derive(Clone, Copy, PartialEq, Eq, Debug, Default)]
pub struct WorkReply {
    pub reason: u32,
    pub line: u32,
    pub place: u32,
    pub g: u32,
    pub h: u32,
    pub across: u32,
}

/// The row at a place.
#[repr(C)]
#[derive(Clone, Copy, PartialEq, Eq, Debug, Default)]
pub struct RowReply {
    pub reason: u32,
    pub line: u32,
    pub first: u32,
    pub second: u32,
    pub amount: u32,
}

/// What a call says.
#[derive(Clone, Copy, PartialEq, Eq, Debug)]
pub enum Told {
    Work(WorkReply),
    Row(RowReply),
    Text(Reply),
}

impl Told {
    pub fn reason(self) -> u32 {
        match self {
            Told::Work(reply) => reply.reason,
            Told::Row(reply) => reply.reason,
            Told::Text(reply) => reply.reason,
        }
    }

    pub fn refused(reason: u32) -> Told {
        Told::Work(WorkReply {
            reason,
            ..WorkReply::default()
        })
    }

    pub fn kept(place: u32, cut: Cut) -> Told {
        Told::Work(WorkReply {
            place,
            g: cut.g as u32,
            h: cut.h as u32,
            across: cut.across as u32,
            ..WorkReply::default()
        })
    }
}

/// A reason of a call: its number, and whether it holds of the table, the place
/// that is named and the numbers of the row.
pub type CallReason = (u32, fn(&Working, u32, &[i64]) -> bool);

/// The place named holds no row.
pub const NO_ROW: CallReason = (22, |table, place, _| table.at(place).is_none());
/// A row's own reasons, as those of a table's row.
pub const OFF_RING: CallReason = (4, |of, _, row| table::off_ring(&row[..2], of.n));
pub const NOT_BELOW: CallReason = (5, |_, _, row| table::not_below(&row[..2]));
pub const TOO_MUCH: CallReason = (7, |_, _, row| table::too_much(row[2]));
/// No room, exactly when all places are taken.
pub const NO_PLACE: CallReason = (21, |table, _, _| table.places.iter().all(Option::is_some));
/// For a fresh table 3 and 20.
pub const RING_SIZE: CallReason = (3, |_, _, ring| !table::known_size(ring[0]));
pub const FIBRES: CallReason = (20, |_, _, ring| !table::known_fibres(ring[1]));

/// The reasons of each altering call, in their order.
#[derive(Clone, Copy)]
pub struct CallReasons {
    pub start: &'static [CallReason],
    pub add: &'static [CallReason],
    pub change: &'static [CallReason],
    pub remove: &'static [CallReason],
}

pub const CALL_REASONS: CallReasons = CallReasons {
    start: &[RING_SIZE, FIBRES],
    add: &[OFF_RING, NOT_BELOW, TOO_MUCH, NO_PLACE],
    change: &[NO_ROW, OFF_RING, NOT_BELOW, TOO_MUCH],
    remove: &[NO_ROW],
};

#[derive(Clone, PartialEq, Eq, Debug)]
pub struct Working {
    pub n: i64,
    pub fibres: i64,
    pub family: Family,
    pub places: Vec<Option<Row>>,
}

pub fn row(wanted: Wanted) -> Row {
    let [first, second, amount] = wanted.map(i64::from);
    Row::of(first, second, amount)
}

impl Working {
    pub fn fresh(n: i64, fibres: i64, family: Family) -> Working {
        Working {
            n,
            fibres,
            family,
            places: vec![None; PLACES],
        }
    }

    /// The row at a place; none at 0 and behind the last.
    pub fn at(&self, place: u32) -> Option<Row> {
        let before = (place as usize).checked_sub(1)?;
        *self.places.get(before)?
    }

    pub fn set(&mut self, place: u32, row: Option<Row>) {
        self.places[place as usize - 1] = row;
    }

    pub fn taken(&self) -> Vec<u32> {
        let places = 1..=PLACES as u32;
        places.filter(|place| self.at(*place).is_some()).collect()
    }

    /// The lowest free place.
    pub fn lowest_free(&self) -> u32 {
        let mut places = 1..=PLACES as u32;
        let free = places.find(|place| self.at(*place).is_none());
        free.expect("21 has been asked before")
    }

    /// The rows held, by place.
    pub fn held(&self) -> Table {
        Table {
            n: self.n,
            fibres: self.fibres,
            family: self.family,
            rows: self.places.iter().flatten().copied().collect(),
        }
    }

    /// Written out, rows go by nodes, then by place.
    pub fn by_nodes(&self) -> Table {
        let mut placed: Vec<(u32, Row)> = Vec::new();
        for place in self.taken() {
            placed.extend(self.at(place).map(|row| (place, row)));
        }
        placed.sort_by_key(|(place, row)| (row.first, row.second, *place));
        Table {
            rows: placed.into_iter().map(|(_, row)| row).collect(),
            ..self.held()
        }
    }

    /// The first reason that holds, 0 where none does.
    pub fn reason(&self, ask: &Ask, reasons: &CallReasons) -> u32 {
        let (list, place, numbers) = match *ask {
            Ask::Start(ring) => (reasons.start, 0, ring),
            Ask::Add(wanted) => (reasons.add, 0, wanted),
            Ask::Change(place, wanted) => (reasons.change, place, wanted),
            Ask::Remove(place) => (reasons.remove, place, [0; 3]),
            Ask::Row(_) | Ask::Write(_) => return 0,
        };
        let numbers = numbers.map(i64::from);
        let first = list.iter().find(|(_, holds)| holds(self, place, &numbers));
        first.map_or(0, |(reason, _)| *reason)
    }

    /// What an accepted call does; the place that it is about, 0 of a start.
    pub fn alter(&mut self, ask: &Ask) -> u32 {
        match *ask {
            Ask::Start([n, fibres, family]) => {
                let (n, fibres) = (i64::from(n), i64::from(fibres));
                *self = Working::fresh(n, fibres, Family::told(family));
                0
            }
            Ask::Add(wanted) => {
                let place = self.lowest_free();
                self.set(place, Some(row(wanted)));
                place
            }
            Ask::Change(place, wanted) => {
                self.set(place, Some(row(wanted)));
                place
            }
            Ask::Remove(place) => {
                self.set(place, None);
                place
            }
            Ask::Row(_) | Ask::Write(_) => 0,
        }
    }

    pub fn row_reply(&self, place: u32) -> RowReply {
        match self.at(place) {
            None => RowReply {
                reason: 22,
                ..RowReply::default()
            },
            Some(row) => RowReply {
                first: row.first as u32,
                second: row.second as u32,
                amount: row.amount as u32,
                ..RowReply::default()
            },
        }
    }

    /// The text to be written.
    pub fn text(&self) -> Answer {
        Ok(twin::written(table_text(&self.by_nodes())))
    }

    /// One call: what it says, and what it does to table and buffer.
    pub fn tell(&mut self, ask: &Ask, buffer: &mut [u8]) -> Told {
        match *ask {
            Ask::Row(place) => Told::Row(self.row_reply(place)),
            Ask::Write(_) => Told::Text(twin::reply(&self.text(), buffer)),
            _ => match self.reason(ask, &CALL_REASONS) {
                0 => Told::kept(self.alter(ask), rules::rule_a(&self.held())),
                reason => Told::refused(reason),
            },
        }
    }
}
