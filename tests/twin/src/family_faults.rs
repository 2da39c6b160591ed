//! Faults of the families of line sizes: what mutant.rs lists. The one family's sizes
//! or letter stand for the other's, M is read where it may not stand, or what is told is
//! lost.

use crate::byte_faults::Pointed;
use crate::byte_tally::Due;
use crate::check;
use crate::checking_faults::*;
use crate::family::Family;
use crate::judging_faults::asking;
use crate::mutant::*;
use crate::rules::{self, Plan};
use crate::table::{self, refuse, start_of, Refusal, Table};
use crate::values::{judge, Values};
use crate::working::Ask;
use crate::working_faults::{altering, hearing, ordering};
use crate::working_stand_in::{keep, Kept};
use crate::{check::Finding, check::Questions, check::QUESTIONS};

pub static FAMILY_FAULTS: [Mutant; 51] = [
    plan("Z: SONET's sizes for SDH", |t| sized(t, Family::Sonet)),
    plan("Z: SDH's sizes for SONET", |t| sized(t, Family::Sdh)),
    plan("Z: once the peak on two fibres of SDH", z_sdh_once),
    on_size("12: SONET's sizes for SDH", size_sonet),
    on_size("12: SDH's sizes for SONET", size_sdh),
    on_size("12: a size of either family taken", size_either),
    on_size("12: once the peak on two fibres of SDH", size_sdh_once),
    read("reading: M forgotten", |text| {
        table::read(text).map(|table| of(table, Family::Sonet))
    }),
    read("reading: M refused", |text| {
        marked(text)?;
        table::read(text)
    }),
    read("reading: m taken", |text| table::read(&small_m(text))),
    read("reading: M before the fibres taken", |text| {
        table::read(&m_early(text))
    }),
    read("reading: M in the place of the fibres taken", |text| {
        table::read(&m_for_four(text))
    }),
    read("reading: a tab behind the fibres taken", |text| {
        table::read(&without_end(text, b"\t"))
    }),
    read("reading: a tab behind M taken", |text| {
        table::read(&without_tab_behind_m(text))
    }),
    read("reading: M twice taken", |text| {
        table::read(&once(text, b"\tM\tM"))
    }),
    read("reading: MM taken", |text| {
        table::read(&once(text, b"\tMM"))
    }),
    read("reading: 3 before 2 of M", |text| {
        judged_early(text, table::read(text))
    }),
    read_sheet("checking: M forgotten", |text| {
        let mut sheet = check::read(text)?;
        sheet.table.family = Family::Sonet;
        Ok(sheet)
    }),
    read_sheet("checking: M refused", |text| {
        marked(text)?;
        check::read(text)
    }),
    read_sheet("checking: m taken", |text| check::read(&small_m(text))),
    read_sheet("checking: M before the fibres taken", |text| {
        check::read(&m_early(text))
    }),
    read_sheet("checking: a tab behind the fibres taken", |text| {
        check::read(&without_end(text, b"\t"))
    }),
    read_sheet("checking: MM taken", |text| {
        check::read(&once(text, b"\tMM"))
    }),
    rewrite("rewriting: M written for SONET", |t| of(t, Family::Sdh)),
    rewrite("rewriting: M not written", |t| of(t, Family::Sonet)),
    rewrite_sheet("rewriting: M written for a sheet of SONET", |mut sheet| {
        sheet.table.family = Family::Sdh;
        sheet
    }),
    rewrite_sheet("rewriting: M of a sheet not written", |mut sheet| {
        sheet.table.family = Family::Sonet;
        sheet
    }),
    hears("matrix: the family dropped", |fibres, _| (fibres, 0)),
    hears("matrix: M always written", |fibres, _| (fibres, 1)),
    hears("matrix: SDH by 1 alone", |fibres, family| {
        (fibres, u32::from(family == 1))
    }),
    hears("matrix: the family in 8 bits", |fibres, family| {
        (fibres, family & 255)
    }),
    hears("matrix: SDH by two fibres", |fibres, _| {
        (fibres, u32::from(fibres == 2))
    }),
    judging("judging: the family dropped", |v| judged_as(v, 0)),
    judging("judging: SDH whatever is told", |v| judged_as(v, 1)),
    judging("judging: SDH by 1 alone", |v| {
        judged_as(v, u32::from(v.family == 1))
    }),
    judging("judging: the family in 8 bits", |v| {
        judged_as(v, v.family & 255)
    }),
    judging("judging: a family above 1 refused by 20", |v| {
        match judge(v) {
            due if due.reason == 3 || v.family < 2 => due,
            _ => Finding {
                reason: 20,
                place: 0,
            },
        }
    }),
    judging("judging: a size of either family taken", |v| {
        asking(
            v,
            &Questions {
                size: size_either,
                ..QUESTIONS
            },
        )
    }),
    working(
        "working: the family dropped",
        hearing(|ask| told(ask, |_| 0)),
    ),
    working("working: SDH always", hearing(|ask| told(ask, |_| 1))),
    working(
        "working: SDH by 1 alone",
        hearing(|ask| told(ask, |family| u32::from(family == 1))),
    ),
    working(
        "working: the family in 8 bits",
        hearing(|ask| told(ask, |family| family & 255)),
    ),
    working(
        "working: a later start keeps the family",
        altering(family_kept),
    ),
    working(
        "working: M written only where there are rows",
        ordering(|table| match table.by_nodes() {
            empty if empty.rows.is_empty() => of(empty, Family::Sonet),
            some => some,
        }),
    ),
    pointing("2: the tab behind the fibres for the M", |p| {
        p.of_letter(|line| start_of(&line, 3) - 1)
    }),
    pointing("2: M for what is behind it", |p| {
        p.of_letter(|line| start_of(&line, 3))
    }),
    pointing("2: behind a badly spelled M", |p| {
        p.of_letter(|line| start_of(&line, 3) + 1)
    }),
    pointing("2: the end of a badly spelled M", |p| {
        p.of_letter(|line| line.bytes.len() as u32)
    }),
    pointing("2: 1 for a badly spelled M", |p| p.of_letter(|_| 1)),
    pointing("2: where the fibres start for a badly spelled M", |p| {
        p.of_letter(|line| start_of(&line, 2))
    }),
    pointing("2: behind a tab that misses its number", tab_skipped),
];

fn of(mut table: Table, family: Family) -> Table {
    table.family = family;
    table
}

// Faults of sizes.

/// The plan with the size that it had in a family.
fn sized(table: &Table, family: Family) -> Plan {
    let mut plan = rules::plan(table);
    plan.size = rules::line_size(&of(table.clone(), family), plan.peak);
    plan
}

fn z_sdh_once(table: &Table) -> Plan {
    let mut plan = rules::plan(table);
    if table.family == Family::Sdh {
        plan.size = rules::size(table.family, plan.peak);
    }
    plan
}

// Faults of reading M.

/// The text with its R line made another, if `change` makes one of it.
fn with_ring(text: &[u8], change: impl Fn(&[u8]) -> Option<Vec<u8>>) -> Vec<u8> {
    let end = text.iter().position(|byte| *byte == b'\n');
    let (first, rest) = text.split_at(end.unwrap_or(text.len()));
    match change(first) {
        Some(first) => [&first, rest].concat(),
        None => text.to_vec(),
    }
}

fn small_m(text: &[u8]) -> Vec<u8> {
    with_ring(text, |line| {
        let ring = line.strip_suffix(b"\tm")?;
        Some([ring, b"\tM"].concat())
    })
}

fn m_early(text: &[u8]) -> Vec<u8> {
    with_ring(text, |line| {
        let fields: Vec<&[u8]> = line.split(|byte| *byte == b'\t').collect();
        match fields[..] {
            [letter, n, b"M", fibres] => Some([letter, n, fibres, b"M"].join(&b'\t')),
            _ => None,
        }
    })
}

/// M where the fibres are due, read as four of them.
fn m_for_four(text: &[u8]) -> Vec<u8> {
    with_ring(text, |line| {
        let fields: Vec<&[u8]> = line.split(|byte| *byte == b'\t').collect();
        match fields[..] {
            [letter, n, b"M"] => Some([letter, n, b"4", b"M"].join(&b'\t')),
            _ => None,
        }
    })
}

fn without_end(text: &[u8], end: &[u8]) -> Vec<u8> {
    with_ring(text, |line| line.strip_suffix(end).map(<[u8]>::to_vec))
}

fn without_tab_behind_m(text: &[u8]) -> Vec<u8> {
    with_ring(text, |line| {
        let ring = line.strip_suffix(b"\tM\t")?;
        Some([ring, b"\tM"].concat())
    })
}

/// M once where the line ends with more.
fn once(text: &[u8], end: &[u8]) -> Vec<u8> {
    with_ring(text, |line| {
        let ring = line.strip_suffix(end)?;
        Some([ring, b"\tM"].concat())
    })
}

/// A ring of SDH refused as before there was one: LF should stand behind the fibres.
fn marked(text: &[u8]) -> Result<(), Refusal> {
    table::read_length(text)?;
    match table::lines(text).first() {
        Some(line) if is_sdh(line) => refuse(2, 1, start_of(line, 3) - 1),
        _ => Ok(()),
    }
}

fn is_sdh(line: &table::Line) -> bool {
    table::ring_fields(line).is_some_and(|(_, family)| family == Family::Sdh)
}

/// 3 in the place of 2, where what stands behind the fibres is badly spelled.
fn judged_early<T>(text: &[u8], read: Result<T, Refusal>) -> Result<T, Refusal> {
    read.map_err(|refusal| {
        let lines = table::lines(text);
        let n = lines.first().and_then(|line| {
            let mut fields = line.bytes.split(|byte| *byte == b'\t').skip(1);
            let n = table::number(fields.next()?)?;
            fields.nth(1).map(|_| n)
        });
        match n {
            Some(n) if (refusal.reason, refusal.line) == (2, 1) && !table::known_size(n) => {
                Refusal {
                    reason: 3,
                    line: 1,
                    byte: 3,
                }
            }
            _ => refusal,
        }
    })
}

impl Pointed<'_> {
    /// Another byte where the fault lies behind the tab that is behind the fibres.
    fn of_letter(&self, byte: impl FnOnce(table::Line) -> u32) -> u32 {
        match (self.refusal.reason, self.due(), self.line()) {
            (2, Some(Due::Ring), Some(line)) if self.field() == 3 => byte(line),
            _ => self.byte(),
        }
    }
}

/// One byte further, as if any field might be empty.
fn tab_skipped(p: &Pointed) -> u32 {
    match (p.refusal.reason, p.due(), p.at()) {
        (2, Some(Due::Ring), Some(b'\t')) => p.byte() + 1,
        _ => p.byte(),
    }
}

// Faults of what is told.

fn judged_as(values: &Values, family: u32) -> Finding {
    judge(&Values {
        family,
        ..values.clone()
    })
}

fn told(ask: Ask, heard: fn(u32) -> u32) -> Ask {
    match ask {
        Ask::Start([n, fibres, family]) => Ask::Start([n, fibres, heard(family)]),
        ask => ask,
    }
}

/// A later start, where calls have made the table, leaves its family.
fn family_kept(kept: &mut Kept, ask: &Ask) -> u32 {
    let (family, later) = (kept.table.family, kept.cut.g >= 1 && kept.cut.g <= 64);
    let place = keep(kept, ask);
    if later {
        kept.table.family = family;
    }
    place
}
