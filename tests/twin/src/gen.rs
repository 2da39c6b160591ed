//! Random tables and damaged texts.

use crate::family::FAMILIES;
use crate::limits::ROWS;
use crate::rng::Rng;
use crate::table::{Row, Table};

/// How the amounts of a table are drawn.
#[derive(Clone, Copy)]
pub enum Amounts {
    Always(i64),
    UpTo(i64),
    /// 0, 1 and 9,999 only.
    Ends,
    /// Each row by a way of its own.
    Mixed,
}

const AMOUNTS: [Amounts; 13] = [
    Amounts::Always(0),
    Amounts::Always(1),
    Amounts::Always(9_999),
    Amounts::UpTo(1),
    Amounts::UpTo(2),
    Amounts::UpTo(9),
    Amounts::UpTo(40),
    Amounts::UpTo(800),
    Amounts::UpTo(9_999),
    Amounts::UpTo(9_999),
    Amounts::Ends,
    Amounts::Mixed,
    Amounts::Mixed,
];

pub fn any_amounts(rng: &mut Rng) -> Amounts {
    rng.pick(&AMOUNTS)
}

fn amount(rng: &mut Rng, amounts: Amounts) -> i64 {
    match amounts {
        Amounts::Always(d) => d,
        Amounts::UpTo(top) => rng.between(0, top),
        Amounts::Ends => rng.pick(&[0, 1, 9_999]),
        Amounts::Mixed => {
            let top = rng.pick(&[0, 1, 3, 20, 300, 9_999]);
            rng.between(0, top)
        }
    }
}

/// All pairs of nodes, in table order.
pub fn pairs(n: i64) -> Vec<(i64, i64)> {
    let mut pairs = Vec::new();
    for i in 1..=n {
        for j in i + 1..=n {
            pairs.push((i, j));
        }
    }
    pairs
}

/// The table of those pairs that are kept, with amounts drawn.
fn keep(rng: &mut Rng, n: i64, amounts: Amounts, kept: impl Fn(i64, i64) -> bool) -> Table {
    let mut rows = Vec::new();
    for (i, j) in pairs(n) {
        if kept(i, j) {
            let d = amount(rng, amounts);
            rows.push(Row::of(i, j, d));
        }
    }
    on_any_ring(rng, n, rows)
}

/// Rows on a ring of two fibres or of four, and of either family.
pub fn on_any_ring(rng: &mut Rng, n: i64, rows: Vec<Row>) -> Table {
    // one draw, so that what is drawn behind it does not depend on the families
    let rings = FAMILIES.map(|family| [2, 4].map(|fibres| (fibres, family)));
    let (fibres, family) = rng.pick(&rings.concat());
    Table {
        n,
        fibres,
        family,
        rows,
    }
}

/// Rows left out until there are no more than there may be.
fn fit(rng: &mut Rng, mut table: Table) -> Table {
    while table.rows.len() > ROWS {
        let at = rng.below(table.rows.len());
        table.rows.remove(at);
    }
    table
}

/// Every pair of nodes is a row, or of more pairs as many as there may be rows.
pub fn full(rng: &mut Rng, n: i64, amounts: Amounts) -> Table {
    let table = keep(rng, n, amounts, |_, _| true);
    fit(rng, table)
}

/// As many rows as there may be, or all, of pairs that are near each other, so that
/// they are soon routed.
pub fn near(rng: &mut Rng, n: i64, amounts: Amounts) -> Table {
    let table = keep(rng, n, amounts, |i, j| j - i <= 19);
    fit(rng, table)
}

/// Each pair is a row `part` times out of `whole`.
pub fn dense(rng: &mut Rng, n: i64, part: usize, whole: usize) -> Table {
    let amounts = any_amounts(rng);
    let mut table = keep(rng, n, amounts, |_, _| true);
    table.rows.retain(|_| rng.chance(part, whole));
    fit(rng, table)
}

/// About `count` rows, whatever the ring.
pub fn sparse(rng: &mut Rng, n: i64, count: usize) -> Table {
    let whole = pairs(n).len();
    dense(rng, n, count.min(whole), whole)
}

/// Any density at all.
pub fn any(rng: &mut Rng, n: i64) -> Table {
    let part = rng.pick(&[1, 5, 20, 50, 90, 100]);
    dense(rng, n, part, 100)
}

/// A table with more circuits put between offices that it joins, up to so many
/// rows in all.
pub fn more_circuits(rng: &mut Rng, table: &mut Table, count: usize) {
    let amounts = any_amounts(rng);
    while table.rows.len() < count {
        let Row {
            first: i,
            second: j,
            ..
        } = rng.pick(&table.rows);
        let d = amount(rng, amounts);
        table.rows.push(Row::of(i, j, d));
    }
    table.rows.sort_by_key(|row| (row.first, row.second));
}

/// So many rows, most of the time between few pairs of offices.
pub fn circuits(rng: &mut Rng, n: i64, count: usize) -> Table {
    let all = pairs(n);
    let mut rows = Vec::new();
    for _ in 0..rng.pick(&[1, 2, 3, 6, 12, 60]).min(count) {
        let (i, j) = rng.pick(&all);
        let d = amount(rng, Amounts::Mixed);
        rows.push(Row::of(i, j, d));
    }
    let mut table = on_any_ring(rng, n, rows);
    more_circuits(rng, &mut table, count);
    table
}

/// All pairs of 20 offices or most of 32, with more circuits, up to as many as there
/// may be.
pub fn full_with_circuits(rng: &mut Rng) -> Table {
    let (n, part) = rng.pick(&[(20, 10), (32, 9)]);
    let mut table = dense(rng, n, part, 10);
    let count = rng.between(table.rows.len() as i64, ROWS as i64);
    more_circuits(rng, &mut table, count as usize);
    table
}

/// A row that joins the first two offices, and so is below what stands before it
/// if that joins others, or a row of too large an amount, or both.
pub fn spoil_row(rng: &mut Rng, row: &mut Row) {
    if rng.chance(1, 2) {
        (row.first, row.second) = (1, 2);
    }
    if rng.chance(1, 2) {
        row.amount = 10_000;
    }
}

/// Tables of one shape: rows that all cross, lie side by side, lie in one
/// another, meet in one node, or join neighbours.
pub fn shaped(rng: &mut Rng, n: i64) -> Table {
    let amounts = any_amounts(rng);
    let half = n / 2;
    let hub = rng.between(1, n);
    let table = match rng.below(8) {
        0 => keep(rng, n, amounts, |i, j| j - i == half),
        1 => keep(rng, n, amounts, |i, j| j - i == half || j - i == half + 1),
        2 => keep(rng, n, amounts, |i, j| i <= half && half < j),
        3 => keep(rng, n, amounts, |i, j| i + j == n + 1 || i + j == n),
        4 => keep(rng, n, amounts, |i, j| i == hub || j == hub),
        5 => keep(rng, n, amounts, |i, j| j - i == 1 || j - i == n - 1),
        6 => keep(rng, n, amounts, |i, j| j - i <= 2),
        _ => keep(rng, n, amounts, |i, j| j - i >= half),
    };
    fit(rng, table)
}

/// A table of few rows or of many, by turns of each kind, with amounts that are small
/// more often than not: such as theorems are tried on.
pub fn for_theorems(rng: &mut Rng, case: u64) -> Table {
    let n = rng.between(2, 18);
    let mut table = match case % 4 {
        0 => shaped(rng, n),
        1 => circuits(rng, n, 24),
        2 => sparse(rng, n, 40),
        _ => any(rng, n),
    };
    let most = rng.pick(&[1, 3, 40, 9_999]);
    for row in &mut table.rows {
        row.amount = row.amount.min(rng.between(0, most));
    }
    table
}

/// A byte that a table or a sheet could hold, or any byte.
fn byte(rng: &mut Rng) -> u8 {
    if rng.chance(1, 4) {
        return rng.below(256) as u8;
    }
    rng.pick(b"RDCLZFBfb\t\t\n\n\r 0123456789")
}

/// One byte changed, dropped or inserted, or the text cut short.
pub fn damage_bytes(rng: &mut Rng, text: &mut Vec<u8>) {
    let at = rng.below(text.len() + 1);
    match rng.below(8) {
        0..=2 if at < text.len() => text[at] = byte(rng),
        3 | 4 if at < text.len() => {
            text.remove(at);
        }
        5 => text.truncate(at),
        6 => {
            text.pop();
        }
        _ => {
            let new = byte(rng);
            text.insert(at, new);
        }
    }
}

pub fn lines_of(text: &[u8]) -> Vec<Vec<u8>> {
    let lines = text.split_inclusive(|byte| *byte == b'\n');
    lines.map(|line| line.to_vec()).collect()
}

/// One of the lines; where they are more than a table's rows, half of the time one
/// about the last of these.
fn any_line(rng: &mut Rng, lines: &[Vec<u8>]) -> usize {
    let end = lines.len().min(ROWS + 4) as i64;
    if lines.len() > ROWS && rng.chance(1, 2) {
        return rng.between(ROWS as i64 - 1, end - 1) as usize;
    }
    rng.below(lines.len())
}

/// Lines swapped, doubled, dropped, moved or cut short.
pub fn damage_lines(rng: &mut Rng, text: &mut Vec<u8>) {
    let mut lines = lines_of(text);
    if lines.is_empty() {
        return;
    }
    let (one, two) = (any_line(rng, &lines), any_line(rng, &lines));
    match rng.below(7) {
        0 => lines.swap(one, two),
        1 if one + 1 < lines.len() => lines.swap(one, one + 1),
        2 => lines.insert(one, lines[one].clone()),
        3 => lines.insert(two, lines[one].clone()),
        4 => {
            lines.remove(one);
        }
        5 => {
            let keep = rng.below(lines[one].len());
            lines[one].truncate(keep);
        }
        _ => {
            let moved = lines.remove(one);
            lines.push(moved);
        }
    }
    *text = lines.concat();
}

/// By number: the text with each byte given each value, then cut short there,
/// with it dropped, and with bytes put in before it.
pub fn byte_changed(mut text: Vec<u8>, number: u64) -> Option<Vec<u8>> {
    let new = *b"RDZ\t\n\r 0123456789\0\xff.-+";
    let each = 256 + new.len() + 2;
    let (at, what) = (number as usize / each, number as usize % each);
    if at >= text.len() {
        return None;
    }
    match what {
        0..=255 => text[at] = what as u8,
        256 => text.truncate(at),
        257 => {
            text.remove(at);
        }
        _ => text.insert(at, new[what - 258]),
    }
    Some(text)
}

/// All sequences of one to `longest` of these, by number.
pub fn sequence<'a>(choices: &[&'a str], longest: u32, mut number: u64) -> Option<Vec<&'a str>> {
    let base = choices.len() as u64;
    for length in 1..=longest {
        if number < base.pow(length) {
            let place = |at| choices[(number / base.pow(at) % base) as usize];
            return Some((0..length).map(place).collect());
        }
        number -= base.pow(length);
    }
    None
}

/// Numbers at the boundaries of what is allowed, good and bad spellings.
pub const BOUNDARY: [&str; 11] = [
    "0",
    "1",
    "2",
    "64",
    "65",
    "9999",
    "10000",
    "19998",
    "99999999",
    "100000000",
    "00",
];

pub const ODD: [&str; 13] = [
    "",
    "01",
    "-1",
    "+1",
    "1 ",
    " 1",
    "1.",
    "0x1",
    "63",
    "33",
    "9998",
    "9999999",
    "999999999",
];

/// One field of one line replaced by a boundary number, or fields doubled,
/// dropped or swapped.
pub fn damage_fields(rng: &mut Rng, text: &mut Vec<u8>) {
    let mut lines = lines_of(text);
    if lines.is_empty() {
        return;
    }
    let first = rng.chance(1, 12);
    let at = if first { 0 } else { any_line(rng, &lines) };
    change_fields(&mut lines[at], |fields| {
        let field = rng.below(fields.len());
        match rng.below(16) {
            0 => fields.insert(field, fields[field].clone()),
            1 => {
                fields.remove(field);
            }
            2 | 3 if fields.len() > 2 => fields.swap(1, 2),
            4 => fields[field] = rng.pick(&ODD).as_bytes().to_vec(),
            _ => {
                let number = fields.len() > 1 && field == 0;
                let field = if number { 1 } else { field };
                fields[field] = rng.pick(&BOUNDARY).as_bytes().to_vec();
            }
        }
    });
    *text = lines.concat();
}

/// A line with its fields changed; its LF, if it has one, stays.
pub fn change_fields(line: &mut Vec<u8>, change: impl FnOnce(&mut Vec<Vec<u8>>)) {
    let ended = line.ends_with(b"\n");
    let body = line.strip_suffix(b"\n").unwrap_or(line);
    let split = body.split(|byte| *byte == b'\t');
    let mut fields: Vec<Vec<u8>> = split.map(|field| field.to_vec()).collect();
    change(&mut fields);
    *line = fields.join(&b'\t');
    if ended {
        line.push(b'\n');
    }
}

/// Two nodes, many of them on one side or the other of a limit.
fn drawn_nodes(rng: &mut Rng) -> (i64, i64) {
    let i = rng.pick(&[0, 1, 1, 2, 3, 8, 16, 32, 33, 63, 64, 65, 99_999_999]);
    let j = rng.pick(&[0, 1, 2, 3, 4, 9, 17, 32, 33, 63, 64, 65, 99_999_999]);
    (i, j)
}

/// One line replaced by another.
fn replace_line(rng: &mut Rng, text: &mut Vec<u8>, drawn: impl FnOnce(&mut Rng) -> String) {
    let mut lines = lines_of(text);
    if lines.is_empty() {
        return;
    }
    let at = any_line(rng, &lines);
    lines[at] = drawn(rng).into_bytes();
    *text = lines.concat();
}

/// One row's numbers all replaced, so that several reasons hold of one line.
pub fn damage_row(rng: &mut Rng, text: &mut Vec<u8>) {
    replace_line(rng, text, |rng| {
        let (i, j) = drawn_nodes(rng);
        let d = rng.pick(&[0, 1, 9_999, 10_000, 10_000, 99_999_999]);
        format!("D\t{i}\t{j}\t{d}\n")
    });
}

/// One line of a sheet replaced by a row whose numbers are all drawn: most of
/// the time its front and back fit its amount, so that a later reason is met.
pub fn damage_sheet_row(rng: &mut Rng, text: &mut Vec<u8>) {
    replace_line(rng, text, |rng| {
        let (i, j) = drawn_nodes(rng);
        let d = rng.pick(&[0, 1, 2, 9_999, 9_999, 10_000, 99_999_999]);
        let mut front = rng.pick(&[0, 1, d, 2 * d, 19_998]);
        let mut back = (2 * d - front).max(0);
        if rng.chance(1, 4) {
            front = rng.pick(&[0, 1, 19_998, 99_999_999]);
            back = rng.pick(&[0, 1, 19_998, 99_999_999]);
        }
        let way = rng.pick(b"FB") as char;
        format!("D\t{i}\t{j}\t{d}\t{front}\t{back}\t{way}\n")
    });
}

/// The text made `length` bytes long, by bytes put in or taken away.
pub fn pad(rng: &mut Rng, text: &mut Vec<u8>, length: usize) {
    let filler: &[u8] = rng.pick(&[
        b"\n".as_slice(),
        b"0",
        b"9",
        b" ",
        b"\t",
        b"D\t1\t2\t1\n",
        b"D\t63\t64\t9999\n",
        b"R\t2\t4\n",
        b"D\t1\t2\t0\t0\t0\tF\n",
        b"L\t1\t0\t0\n",
        b"Z\t0\t3\n",
        b"\0",
    ]);
    let missing = length.saturating_sub(text.len());
    let padding: Vec<u8> = filler.iter().copied().cycle().take(missing).collect();
    let at = rng.pick(&[text.len(), text.len(), text.len().saturating_sub(1), 2, 0]);
    let at = at.min(text.len());
    text.splice(at..at, padding);
    text.truncate(length);
    if rng.chance(1, 2) {
        text.pop();
        text.push(b'\n');
    }
}

/// A text of a few random bytes that a table or a sheet could hold.
pub fn noise(rng: &mut Rng) -> Vec<u8> {
    let length = rng.below(40);
    (0..length).map(|_| byte(rng)).collect()
}

/// One of the damages, that of a row among them.
pub fn damage_any(rng: &mut Rng, text: &mut Vec<u8>, row: fn(&mut Rng, &mut Vec<u8>)) {
    let damages: [fn(&mut Rng, &mut Vec<u8>); 4] = [damage_bytes, damage_lines, damage_fields, row];
    rng.pick(&damages)(rng, text);
}
