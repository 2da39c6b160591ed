//! The groups of sheets that are held as values: those of the sheets that are
//! texts, as far as their lines have their shape, and these with numbers that no
//! text can spell, sums that wrap, and rows and links left out, put in and moved.

use crate::check;
use crate::compare::Case;
use crate::groups::Make;
use crate::limits::ROWS;
use crate::part::{group, Group};
use crate::rng::Rng;
use crate::sheets;
use crate::values::{HeldLink, HeldRow, Values};

/// The values of the texts that `make` gives, changed by `change`.
pub struct Changed {
    make: Make,
    change: fn(&mut Rng, &mut Values),
}

impl Changed {
    /// The next values: none where the list has ended, and none where the text's lines
    /// have not their shape.
    pub fn values(&self, rng: &mut Rng, case: u64) -> Option<Option<Values>> {
        let text = (self.make)(rng, case)?.text;
        Some(check::read_values(&text, &[]).ok().map(|sheet| {
            let mut values = Values::of(&sheet);
            (self.change)(rng, &mut values);
            values
        }))
    }
}

const fn as_read(name: &'static str, share: u64, make: Make) -> Group<Changed> {
    let change = as_they_are;
    group(name, share, Changed { make, change })
}

const fn changed(
    name: &'static str,
    share: u64,
    change: fn(&mut Rng, &mut Values),
) -> Group<Changed> {
    let make = any_sheet;
    group(name, share, Changed { make, change })
}

pub const JUDGING_GROUPS: [Group<Changed>; 21] = [
    as_read("judging: the stated sheets", 0, sheets::stated),
    as_read("judging: all small sheets", 0, sheets::all_small),
    as_read(
        "judging: about as many rows as there may be",
        0,
        sheets::about_most,
    ),
    as_read("judging: sheets of ours", 80, sheets::ours),
    as_read("judging: sheets of ours, full rings", 6, sheets::ours_full),
    as_read(
        "judging: foreign sheets, 2 to 15 offices",
        40,
        sheets::foreign_small,
    ),
    as_read(
        "judging: foreign sheets, 16 to 64 offices",
        90,
        sheets::foreign_large,
    ),
    as_read(
        "judging: foreign sheets, full rings",
        6,
        sheets::foreign_full,
    ),
    as_read(
        "judging: sheets of 40 to 64 offices, full",
        0,
        sheets::full_larger,
    ),
    as_read("judging: rows that cross", 50, sheets::crossing),
    as_read("judging: 1,024 rows", 4, sheets::most_rows),
    as_read("judging: 1,025 rows and more", 24, sheets::too_many_rows),
    as_read("judging: a figure off by one", 100, sheets::off_by_one),
    as_read("judging: two figures off", 60, sheets::two_off),
    as_read("judging: fields damaged", 60, sheets::damaged_fields),
    as_read("judging: rows damaged", 60, sheets::damaged_rows),
    changed("judging: families by any number", 60, any_family),
    changed("judging: numbers that no text can spell", 120, any_numbers),
    changed("judging: sums that wrap", 60, wrapping),
    changed("judging: rows and links moved", 90, moved),
    changed("judging: up to 5,000 rows", 10, lengthened),
];

fn as_they_are(_: &mut Rng, _: &mut Values) {}

/// Sheets of every kind, mostly true ones.
fn any_sheet(rng: &mut Rng, case: u64) -> Option<Case> {
    let makes: [Make; 8] = [
        sheets::ours,
        sheets::foreign_small,
        sheets::foreign_large,
        sheets::crossing,
        sheets::all_across,
        sheets::ours,
        sheets::off_by_one,
        sheets::most_rows,
    ];
    // Sheets of 1,024 rows are dear.
    let kinds = if case % 16 == 0 { 8 } else { 7 };
    makes[rng.below(kinds)](rng, case)
}

/// Any number, by the one that stands there: the ends of 32 bits, the true one with
/// a high bit more, its neighbours.
fn any_number(rng: &mut Rng, number: u32) -> u32 {
    match rng.below(12) {
        0 => u32::MAX,
        1 => 4_000_000_000,
        2 => number.wrapping_add(1 << 31),
        3 => number.wrapping_add(1 << 16),
        4 => number.wrapping_add(1 << 8),
        5 => number.wrapping_add(1),
        6 => number.wrapping_sub(1),
        7 => rng.next() as u32,
        8 => rng.pick(&[0, 1, 2, 64, 65, 9_999, 10_000]),
        9 => number.wrapping_mul(2),
        10 => number.wrapping_add(3 << 30),
        _ => 0,
    }
}

/// The family by another number of its own, or the other family.
fn any_family(rng: &mut Rng, values: &mut Values) {
    values.family = match values.family {
        0 if rng.chance(3, 4) => 0,
        _ => any_number(rng, 1),
    };
}

/// One number changed, or several; seldom those of the ring, behind which nothing is
/// judged.
fn any_numbers(rng: &mut Rng, values: &mut Values) {
    if rng.chance(1, 20) {
        values.n = any_number(rng, values.n);
    }
    if rng.chance(1, 20) {
        values.fibres = any_number(rng, values.fibres);
    }
    if rng.chance(1, 10) {
        values.family = any_number(rng, values.family);
    }
    let times = rng.pick(&[1, 1, 1, 2, 3]);
    let mut all = values.numbers();
    let behind_rows = all.len().min(40);
    for _ in 0..times {
        let anywhere = rng.below(all.len());
        let late = all.len() - 1 - rng.below(behind_rows);
        let at = if rng.chance(1, 2) { anywhere } else { late };
        *all[at] = any_number(rng, *all[at]);
    }
}

/// Any of the rows.
fn a_row<'a>(rng: &mut Rng, values: &'a mut Values) -> Option<&'a mut HeldRow> {
    let at = rng.below(values.rows.len().max(1));
    values.rows.get_mut(at)
}

/// Front and back of a row that add up to twice its amount in 8, 16, 31 or 32 bits
/// alone; B by another number than 1.
fn wrapping(rng: &mut Rng, values: &mut Values) {
    let way = rng.pick(&[1, 2, 7, 1 << 8, 1 << 16, u32::MAX]);
    for row in &mut values.rows {
        row.way *= way;
    }
    let (bits, share) = (rng.pick(&[8, 16, 31, 32, 32, 32]), rng.next());
    let Some(row) = a_row(rng, values) else {
        return;
    };
    let sum = 2 * u64::from(row.amount.min(9_999)) + (1_u64 << bits);
    let most = sum.min(u32::MAX.into());
    let front = sum - most + share % (2 * most - sum + 1);
    row.front = front as u32;
    row.back = (sum - front) as u32;
}

/// Rows and links left out, doubled, exchanged, or put at the end; often none left
/// at all.
fn moved(rng: &mut Rng, values: &mut Values) {
    match rng.below(12) {
        0 => values.links.clear(),
        1 => values.rows.clear(),
        what @ 2..=7 => move_links(rng, &mut values.links, what),
        what if values.rows.is_empty() => values.links.truncate(what / 4),
        what => move_rows(rng, &mut values.rows, what),
    }
}

fn move_links(rng: &mut Rng, links: &mut Vec<HeldLink>, what: usize) {
    match what {
        2 => {
            links.pop();
        }
        3 => links.push(links[0]),
        4 => links.reverse(),
        5 => {
            let (one, two) = (rng.below(links.len()), rng.below(links.len()));
            links.swap(one, two);
        }
        6 => {
            let at = rng.below(links.len());
            links.remove(at);
        }
        _ => links.extend_from_within(..),
    }
}

fn move_rows(rng: &mut Rng, rows: &mut Vec<HeldRow>, what: usize) {
    let at = rng.below(rows.len());
    match what {
        8 => {
            rows.remove(at);
        }
        9 => rows.insert(at, rows[at]),
        10 => rows[at..].reverse(),
        _ => rows.swap(0, at),
    }
}

/// The last row again and again, and sometimes a fault in one of them.
fn lengthened(rng: &mut Rng, values: &mut Values) {
    let length = rng.pick(&[ROWS - 1, ROWS, ROWS + 1, ROWS + 2, 496, 5_000]);
    let last = values.rows.last().copied().unwrap_or(HeldRow {
        first: 1,
        second: 2,
        ..HeldRow::default()
    });
    values.rows.resize(length, last);
    if rng.chance(1, 2) {
        let anywhere = rng.below(length);
        let at = rng.pick(&[0, ROWS - 2, length - 1, anywhere, ROWS]);
        if let Some(row) = values.rows.get_mut(at.min(length - 1)) {
            row.back = any_number(rng, row.back);
            row.amount = any_number(rng, row.amount);
        }
    }
}
