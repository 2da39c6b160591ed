//! A sheet that is held as values: records of rows and of links, and the other
//! figures beside them, each a number of 32 bits. What judging answers of them
//! (Rules, reading and judging).

use crate::check::{self, Finding, Sheet};
use crate::family::Family;
use crate::rules::{Cut, Plan, Sent, Way};
use crate::table::{Row, Table};

#[repr(C)]
#[derive(Clone, Copy, PartialEq, Eq, Default, Debug)]
pub struct HeldRow {
    pub first: u32,
    pub second: u32,
    pub amount: u32,
    pub front: u32,
    pub back: u32,
    /// 0 is F, any other number B.
    pub way: u32,
}

#[repr(C)]
#[derive(Clone, Copy, PartialEq, Eq, Default, Debug)]
pub struct HeldLink {
    pub link: u32,
    pub split: u32,
    pub unsplit: u32,
}

#[derive(Clone, PartialEq, Eq, Default, Debug)]
pub struct Values {
    pub n: u32,
    pub fibres: u32,
    /// 0 is SONET, any other number SDH.
    pub family: u32,
    pub rows: Vec<HeldRow>,
    pub g: u32,
    pub h: u32,
    pub across: u32,
    pub links: Vec<HeldLink>,
    pub peak: u32,
    pub size: u32,
}

impl Values {
    /// What a sheet says; none of its numbers has more than 32 bits.
    pub fn of(sheet: &Sheet) -> Values {
        let (table, plan) = (&sheet.table, &sheet.plan);
        let rows = table.rows.iter().zip(&plan.sent).zip(&plan.ways);
        let links = sheet.links.iter().zip(&plan.split).zip(&plan.unsplit);
        Values {
            n: table.n as u32,
            fibres: table.fibres as u32,
            family: table.family.number(),
            rows: rows
                .map(|((row, sent), way)| held_row(row, sent, *way))
                .collect(),
            g: plan.cut.g as u32,
            h: plan.cut.h as u32,
            across: plan.cut.across as u32,
            links: links
                .map(|((link, split), unsplit)| HeldLink {
                    link: *link as u32,
                    split: *split as u32,
                    unsplit: *unsplit as u32,
                })
                .collect(),
            peak: plan.peak as u32,
            size: plan.size as u32,
        }
    }

    /// All numbers but those of the ring, each to be changed in place.
    pub fn numbers(&mut self) -> Vec<&mut u32> {
        let mut all: Vec<&mut u32> = Vec::new();
        for row in &mut self.rows {
            all.extend([&mut row.first, &mut row.second, &mut row.amount]);
            all.extend([&mut row.front, &mut row.back, &mut row.way]);
        }
        for link in &mut self.links {
            all.extend([&mut link.link, &mut link.split, &mut link.unsplit]);
        }
        all.extend([&mut self.g, &mut self.h, &mut self.across]);
        all.extend([&mut self.peak, &mut self.size]);
        all
    }

    /// The same as a sheet, whose numbers have room for every sum.
    pub fn sheet(&self) -> Sheet {
        let row = |row: &HeldRow| Row {
            first: row.first.into(),
            second: row.second.into(),
            amount: row.amount.into(),
        };
        let sent = |row: &HeldRow| Sent {
            front: row.front.into(),
            back: row.back.into(),
        };
        let load = |number: fn(&HeldLink) -> u32| {
            let links = self.links.iter();
            links.map(|link| number(link).into()).collect::<Vec<i64>>()
        };
        Sheet {
            table: Table {
                n: self.n.into(),
                fibres: self.fibres.into(),
                family: Family::told(self.family),
                rows: self.rows.iter().map(row).collect(),
            },
            plan: Plan {
                cut: Cut {
                    g: self.g.into(),
                    h: self.h.into(),
                    across: self.across.into(),
                },
                sent: self.rows.iter().map(sent).collect(),
                ways: self.rows.iter().map(way).collect(),
                split: load(|link| link.split),
                unsplit: load(|link| link.unsplit),
                peak: self.peak.into(),
                size: self.size.into(),
            },
            links: load(|link| link.link),
        }
    }
}

fn held_row(row: &Row, sent: &Sent, way: Way) -> HeldRow {
    HeldRow {
        first: row.first as u32,
        second: row.second as u32,
        amount: row.amount as u32,
        front: sent.front as u32,
        back: sent.back as u32,
        way: u32::from(way == Way::B),
    }
}

fn way(row: &HeldRow) -> Way {
    if row.way == 0 {
        Way::F
    } else {
        Way::B
    }
}

/// What the call answers; both numbers are 0 where the values are accepted.
pub fn judge(values: &Values) -> Finding {
    answer(check::judge(&values.sheet()))
}

pub fn answer(outcome: Result<(), Finding>) -> Finding {
    outcome.err().unwrap_or_default()
}
