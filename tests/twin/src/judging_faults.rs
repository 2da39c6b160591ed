//! Faults of judging values: what is found is found in another order, named by
//! another place, or worked out in too few bits.

use crate::check::{self, found, Finding, Question, Questions, Sheet, QUESTIONS};
use crate::checking_faults::{sum_short, yes};
use crate::limits::ROWS;
use crate::mutant::{judging, Mutant};
use crate::row_faults::MANY_LATE;
use crate::values::{answer, judge, HeldRow, Values};

/// A count of loads other than n.
const COUNT: Finding = Finding {
    reason: 11,
    place: 0,
};

pub fn asking(values: &Values, questions: &Questions) -> Finding {
    answer(check::judge_asking(&values.sheet(), questions))
}

/// Judged by what is kept of each row.
fn in_bits(values: &Values, change: fn(&mut HeldRow)) -> Finding {
    let mut short = values.clone();
    short.rows.iter_mut().for_each(change);
    judge(&short)
}

/// The sum of front and back in so many bits.
fn sum_in(values: &Values, sum: Question) -> Finding {
    asking(values, &Questions { sum, ..QUESTIONS })
}

fn sum_32(sheet: &Sheet, at: usize) -> bool {
    let (row, sent) = check::row_at(sheet, at);
    (sent.front + sent.back) as u32 == 2 * row.amount as u32
}

fn sum_31(sheet: &Sheet, at: usize) -> bool {
    let (row, sent) = check::row_at(sheet, at);
    (sent.front + sent.back) << 33 == (2 * row.amount) << 33
}

fn without_count() -> Questions {
    Questions {
        count: yes,
        ..QUESTIONS
    }
}

/// A count of loads is passed over where it would be found.
fn count_passed(values: &Values, passed: fn(&Values) -> bool) -> Finding {
    let due = judge(values);
    if due == COUNT && passed(values) {
        let mut even = values.clone();
        even.links.truncate(values.n as usize);
        return asking(&even, &without_count());
    }
    due
}

/// Rows and ring first, as a text is read, and the figures of rows behind them.
fn forms_first(values: &Values) -> Finding {
    let forms = Questions {
        sum: yes,
        way: yes,
        ..QUESTIONS
    };
    let sheet = values.sheet();
    let read = check::judge_ring(&sheet).and_then(|()| check::judge_rows(&sheet, &forms));
    answer(read.and_then(|()| check::judge(&sheet)))
}

fn named(values: &Values, place: fn(&Values, Finding) -> u32) -> Finding {
    let due = judge(values);
    Finding {
        place: place(values, due),
        ..due
    }
}

pub static JUDGING_FAULTS: [Mutant; 32] = [
    judging("judging: 16 after 7", |values| {
        let rows = &MANY_LATE;
        asking(values, &Questions { rows, ..QUESTIONS })
    }),
    judging("judging: 16 before any row is judged", |values| {
        match (judge(values), values.rows.len() > ROWS) {
            (due, true) if due.place > 0 && due.reason < 10 || due.reason == 16 => {
                answer(found(16, ROWS + 1))
            }
            (due, _) => due,
        }
    }),
    judging("judging: rows beyond 1,024 left out", |values| {
        let mut fewer = values.clone();
        fewer.rows.truncate(ROWS);
        judge(&fewer)
    }),
    judging("judging: 11 before 10", |values| {
        let cut = yes;
        match asking(values, &Questions { cut, ..QUESTIONS }) {
            due if due.reason == 11 => due,
            _ => judge(values),
        }
    }),
    judging("judging: a count of loads before the cut", |values| {
        let cut = yes;
        match asking(values, &Questions { cut, ..QUESTIONS }) {
            due if due == COUNT => due,
            _ => judge(values),
        }
    }),
    judging("judging: 12 before 11", |values| {
        let (count, link) = (yes, yes);
        let early = Questions {
            count,
            link,
            ..QUESTIONS
        };
        match asking(values, &early) {
            due if due.reason == 12 => due,
            _ => judge(values),
        }
    }),
    judging("judging: a count of loads not looked at", |values| {
        count_passed(values, |_| true)
    }),
    judging("judging: too few loads taken", |values| {
        count_passed(values, |values| values.links.len() < values.n as usize)
    }),
    judging("judging: loads left over taken", |values| {
        count_passed(values, |values| values.links.len() > values.n as usize)
    }),
    judging(
        "judging: the count of loads behind the links",
        |values| match count_passed(values, |_| true) {
            due if due.reason == 11 => due,
            _ => judge(values),
        },
    ),
    judging("judging: the figures of rows behind all rows", forms_first),
    judging("judging: 9 before 8", |values| {
        let sum = yes;
        let early = Questions { sum, ..QUESTIONS };
        match (judge(values), asking(values, &early)) {
            (due, way) if due.reason == 8 && way.reason == 9 && due.place == way.place => way,
            (due, _) => due,
        }
    }),
    judging("judging: the ring not judged", |values| {
        match judge(values) {
            Finding { reason: 3, .. } => Finding::default(),
            due => due,
        }
    }),
    judging("judging: 20 before 3", |values| match judge(values) {
        Finding { reason: 3, .. } if ![2, 4].contains(&values.fibres) => answer(found(20, 0)),
        due => due,
    }),
    judging("judging: 20 never", |values| {
        let fibres = if values.fibres == 2 { 2 } else { 4 };
        judge(&Values {
            fibres,
            ..values.clone()
        })
    }),
    judging("judging: front and back in 32 bits", |values| {
        sum_in(values, sum_32)
    }),
    judging("judging: front and back in 31 bits", |values| {
        sum_in(values, sum_31)
    }),
    judging("judging: front and back in 16 bits", |values| {
        sum_in(values, sum_short)
    }),
    judging("judging: nodes in 8 bits", |values| {
        in_bits(values, |row| {
            row.first &= 255;
            row.second &= 255;
        })
    }),
    judging("judging: amounts in 16 bits", |values| {
        in_bits(values, |row| row.amount &= 65_535)
    }),
    judging("judging: loads in 16 bits", |values| {
        // Loads that are true have so many bits where the rows are small.
        let mut short = values.clone();
        for link in &mut short.links {
            link.split &= 65_535;
            link.unsplit &= 65_535;
        }
        match judge(values) {
            Finding { reason: 11, .. } => judge(&short),
            due => due,
        }
    }),
    judging("judging: the peak in 31 bits", |values| {
        let peak = values.peak & (u32::MAX >> 1);
        judge(&Values {
            peak,
            ..values.clone()
        })
    }),
    judging("judging: the across number in 31 bits", |values| {
        let across = values.across & (u32::MAX >> 1);
        judge(&Values {
            across,
            ..values.clone()
        })
    }),
    judging("judging: B by 1 alone", |values| {
        in_bits(values, |row| row.way = u32::from(row.way == 1))
    }),
    judging("judging: B by odd numbers alone", |values| {
        in_bits(values, |row| row.way &= 1)
    }),
    judging("judging: the way in 8 bits", |values| {
        in_bits(values, |row| row.way &= 255)
    }),
    judging("judging: places from 0", |values| {
        named(values, |_, due| due.place.saturating_sub(1))
    }),
    judging("judging: lines for the places of rows", |values| {
        named(values, |_, due| {
            due.place + u32::from(due.place > 0 && due.reason != 11)
        })
    }),
    judging("judging: lines for the places of links", |values| {
        named(values, |values, due| {
            let behind = if due.place > 0 && due.reason == 11 {
                values.rows.len() as u32 + 2
            } else {
                0
            };
            due.place + behind
        })
    }),
    judging("judging: no place of a link", |values| {
        named(
            values,
            |_, due| {
                if due.reason == 11 {
                    0
                } else {
                    due.place
                }
            },
        )
    }),
    judging("judging: the cut's line for its place", |values| {
        named(values, |values, due| {
            if due.reason == 10 {
                values.rows.len() as u32 + 2
            } else {
                due.place
            }
        })
    }),
    judging("judging: the link that is missing for 0", |values| {
        named(values, |values, due| {
            if due == COUNT {
                values.links.len() as u32 + 1
            } else {
                due.place
            }
        })
    }),
];
