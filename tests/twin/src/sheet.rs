//! Writing a table and a sheet (Rules, tables; Rules, sheets).

use crate::rules::{Plan, Way};
use crate::table::Table;

/// A line ends with LF; fields are parted by one tab.
fn line(text: &mut String, letter: &str, numbers: &[i64], last: &str) {
    text.push_str(letter);
    for number in numbers {
        text.push('\t');
        text.push_str(&number.to_string());
    }
    if !last.is_empty() {
        text.push('\t');
        text.push_str(last);
    }
    text.push('\n');
}

/// `R n fibres`, and M behind them where the ring is of SDH.
fn ring_line(text: &mut String, table: &Table) {
    let last = table.family.letter();
    line(text, "R", &[table.n, table.fibres], last);
}

/// A table is its R line, then `D i j amount` lines.
pub fn table_text(table: &Table) -> Vec<u8> {
    let mut text = String::new();
    ring_line(&mut text, table);
    for row in &table.rows {
        line(&mut text, "D", &[row.first, row.second, row.amount], "");
    }
    text.into_bytes()
}

/// A sheet is its R line; `D i j amount front back F-or-B` lines; `C g h across`;
/// `L link split-load unsplit-load` for links 1..n in order; `Z unsplit-peak
/// size`.
pub fn sheet_text(table: &Table, plan: &Plan) -> Vec<u8> {
    let mut text = String::new();
    ring_line(&mut text, table);
    for (at, row) in table.rows.iter().enumerate() {
        let sent = plan.sent[at];
        let way = match plan.ways[at] {
            Way::F => "F",
            Way::B => "B",
        };
        let numbers = [row.first, row.second, row.amount, sent.front, sent.back];
        line(&mut text, "D", &numbers, way);
    }
    let cut = plan.cut;
    line(&mut text, "C", &[cut.g, cut.h, cut.across], "");
    for link in 1..=table.n {
        let at = link as usize - 1;
        let numbers = [link, plan.split[at], plan.unsplit[at]];
        line(&mut text, "L", &numbers, "");
    }
    line(&mut text, "Z", &[plan.peak, plan.size], "");
    text.into_bytes()
}
