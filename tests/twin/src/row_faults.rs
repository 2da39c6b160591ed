//! Faults of judging a row, of a table or of a sheet: reasons asked in another
//! order or with another limit. What mutant.rs lists for both.

use crate::limits::{AMOUNT, ROWS};
use crate::table::{Refusal, RowReason};
use crate::table::{FALLEN, NOT_BELOW, OFF_RING, TOO_MANY, TOO_MUCH};

pub const FIVE_FIRST: [RowReason; 5] = [NOT_BELOW, OFF_RING, FALLEN, TOO_MANY, TOO_MUCH];
pub const SEVEN_FIRST: [RowReason; 5] = [OFF_RING, NOT_BELOW, TOO_MUCH, FALLEN, TOO_MANY];
pub const MANY_EARLY: [RowReason; 5] = [OFF_RING, NOT_BELOW, TOO_MANY, FALLEN, TOO_MUCH];
pub const MANY_LATE: [RowReason; 5] = [OFF_RING, NOT_BELOW, FALLEN, TOO_MUCH, TOO_MANY];
pub const MANY_NEVER: [RowReason; 4] = [OFF_RING, NOT_BELOW, FALLEN, TOO_MUCH];

pub const MANY_AT_MOST: [RowReason; 5] = {
    let at_most: RowReason = (16, |_, above| above.rows.len() + 1 >= ROWS);
    [OFF_RING, NOT_BELOW, FALLEN, at_most, TOO_MUCH]
};

pub const MANY_AT_497: [RowReason; 5] = {
    let at_497: RowReason = (16, |_, above| above.rows.len() + 1 >= 497);
    [OFF_RING, NOT_BELOW, FALLEN, at_497, TOO_MUCH]
};

/// Reason 6 of circuits between the same two offices too.
pub const NOT_ABOVE: [RowReason; 5] = {
    let not_above: RowReason = (6, |row, above| {
        above
            .rows
            .last()
            .is_some_and(|before| (row[0], row[1]) <= (before.first, before.second))
    });
    [OFF_RING, NOT_BELOW, not_above, TOO_MANY, TOO_MUCH]
};

pub const NOT_OTHER: [RowReason; 6] = {
    let not_other: RowReason = (6, |row, above| {
        above
            .rows
            .last()
            .is_some_and(|before| row[..3] == [before.first, before.second, before.amount])
    });
    [OFF_RING, NOT_BELOW, FALLEN, not_other, TOO_MANY, TOO_MUCH]
};

pub const BY_FIRST: [RowReason; 5] = {
    let by_first: RowReason = (6, |row, above| {
        above
            .rows
            .last()
            .is_some_and(|before| row[0] < before.first)
    });
    [OFF_RING, NOT_BELOW, by_first, TOO_MANY, TOO_MUCH]
};

pub const MUCH_LOW: [RowReason; 5] = {
    let low: RowReason = (7, |row, _| row[2] >= AMOUNT);
    [OFF_RING, NOT_BELOW, FALLEN, TOO_MANY, low]
};

pub const MUCH_HIGH: [RowReason; 5] = {
    let high: RowReason = (7, |row, _| row[2] > AMOUNT + 1);
    [OFF_RING, NOT_BELOW, FALLEN, TOO_MANY, high]
};

/// Where a text has so many rows, 16 in the place of any row's refusal.
pub fn too_many_lines(text: &[u8], refusal: Refusal) -> Refusal {
    let lines = text.split(|byte| *byte == b'\n');
    let rows = lines.filter(|line| line.starts_with(b"D")).count();
    let (reason, line, byte) = (16, ROWS as u32 + 2, 1);
    if refusal.line > 1 && rows > ROWS {
        return Refusal { reason, line, byte };
    }
    refusal
}

/// The text without the rows that stand beyond the last that there may be.
pub fn first_rows(text: &[u8]) -> Vec<u8> {
    let lines = text.split_inclusive(|byte| *byte == b'\n').enumerate();
    let kept = lines.filter(|(at, line)| *at <= ROWS || !line.starts_with(b"D"));
    kept.flat_map(|(_, line)| line.to_vec()).collect()
}
