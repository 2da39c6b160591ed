//! The limits of rings, tables and numbers, each named once (Rules, limits).

/// A ring has so many offices at most; two at least.
pub const OFFICES: i64 = 64;
/// So many rows a table has at most, and places a working table.
pub const ROWS: usize = 1_024;
/// A number has so many digits at most.
pub const DIGITS: usize = 8;
/// A row, an entry of a matrix and the sum of a pair have such an amount at most.
pub const AMOUNT: i64 = 9_999;
/// A text has so many bytes at most.
pub const TEXT: usize = 32_768;
/// The best choice is sought for so many split rows at most.
pub const SPLIT: usize = 16;
/// A text of many plans has so many bytes at most.
pub const REPORT_TEXT: usize = 65_536;
