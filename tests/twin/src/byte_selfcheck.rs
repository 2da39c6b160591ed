//! The twin's own checks of the byte to which a refusal points, by hand. And the
//! rule for a badly shaped line once more, by trying how a line might go on.

use crate::bars::{barred, tabbed};
use crate::rng::Rng;
use crate::selfcheck::{same, Outcome};
use crate::shape::{self, first_fault};
use crate::table::{self, Line, Refusal};
use crate::twin::{self, Call};

/// Reason, line and byte; 0 where the text is accepted.
fn refusal(call: Call, text: &str) -> (u32, u32, u32) {
    let answer = twin::answer(call, &tabbed(text));
    answer.map_or_else(
        |Refusal { reason, line, byte }| (reason, line, byte),
        |_| (0, 0, 0),
    )
}

/// The last line of a text behind good ones, and what it is refused with.
fn last_lines(call: Call, above: &str, wanted: &[(&str, u32, u32)]) -> Outcome {
    let line = above.matches('\n').count() as u32 + 1;
    for (last, reason, byte) in wanted {
        let text = format!("{above}{last}");
        same(&text, refusal(call, &text), (*reason, line, *byte))?;
    }
    Ok(())
}

/// Spellings of the R line, which tables and sheets share.
const RINGS: [(&str, u32, u32); 41] = [
    ("\n", 2, 1),
    ("X\n", 2, 1),
    ("r|4|4\n", 2, 1),
    ("|4|4\n", 2, 1),
    ("R", 2, 2),
    ("RR|4|4\n", 2, 2),
    ("R 4 4\n", 2, 2),
    ("R|\n", 2, 3),
    ("R|4\n", 2, 4),
    ("R|007|4\n", 2, 4),
    ("R|123456789|4\n", 2, 11),
    ("R|12345678|4\n", 3, 3),
    ("R|4|\n", 2, 5),
    ("R|4|4", 2, 6),
    ("R|4|4|\n", 2, 7),
    ("R|4|4|", 2, 7),
    ("R|4|4|M", 2, 8),
    ("R|4|4|m\n", 2, 7),
    ("R|4|4|m", 2, 7),
    ("R|4|4|4\n", 2, 7),
    ("R|4|4||M\n", 2, 7),
    ("R|4|4| M\n", 2, 7),
    ("R|4|4|\rM\n", 2, 7),
    ("R|4|4|MM\n", 2, 8),
    ("R|4|4|M|\n", 2, 8),
    ("R|4|4|M|M\n", 2, 8),
    ("R|4|4|M \n", 2, 8),
    ("R|4|4|M\r\n", 2, 8),
    ("R|4|4M\n", 2, 6),
    ("R|4|4 M\n", 2, 6),
    ("R|4|M|4\n", 2, 5),
    ("R|4|M\n", 2, 5),
    ("R|M|4|4\n", 2, 3),
    ("R|4||M\n", 2, 5),
    ("R|64|400000000|M\n", 2, 14),
    ("R|65|4|M\n", 3, 3),
    ("R|4|3|M\n", 20, 5),
    ("R|65|4\n", 3, 3),
    ("R|1|3\n", 3, 3),
    ("R|4|3\n", 20, 5),
    ("R|64|24\n", 20, 6),
];

/// Rows of a table of four offices.
const ROWS: [(&str, u32, u32); 22] = [
    ("D \n", 2, 2),
    ("DD\n", 2, 2),
    ("X\n", 2, 1),
    ("\n", 2, 1),
    ("d|1|2|1\n", 2, 1),
    ("C|1|2|1\n", 2, 1),
    ("D", 2, 2),
    ("D|1|2|1", 2, 8),
    ("D|1|2\n", 2, 6),
    ("D|1||1\n", 2, 5),
    ("D|1|2|1|\n", 2, 8),
    ("D|1|2|1|1|1|F\n", 2, 8),
    ("D|1|2| 1\n", 2, 7),
    ("D|1|2|1 \n", 2, 8),
    ("D|1|2|-1\n", 2, 7),
    ("D|0|2|1\n", 4, 3),
    ("D|1|5|1\n", 4, 5),
    ("D|5|6|10000\n", 4, 3),
    ("D|12|99999999|1\n", 4, 3),
    ("D|1|2|10000\n", 7, 7),
    ("D|3|3|10000\n", 5, 1),
    ("D|1|2|00\n", 2, 8),
];

/// Where a row or the cut of a sheet is due.
const EITHER: [(&str, u32, u32); 16] = [
    ("D \n", 2, 2),
    ("DD\n", 2, 2),
    ("CC\n", 2, 2),
    ("C|1|2\n", 2, 6),
    ("C|1|2|01\n", 2, 8),
    ("L|1|0|0\n", 2, 1),
    ("X\n", 2, 1),
    ("\n", 2, 1),
    ("D|1|2|1\n", 2, 8),
    ("D|1|2|1|1|1|FB\n", 2, 14),
    ("D|1|2|1|1|1|F \n", 2, 14),
    ("D|1|2|1|1|1|f\n", 2, 13),
    ("D|1|2|1|1|1|\n", 2, 13),
    ("D|1|2|1|1|1|F", 2, 14),
    ("D|1|2|1|1|1\n", 2, 12),
    ("D|1|2|10000|1|1|F\n", 7, 7),
];

/// Texts whose line is missing or left over, and of a matrix the rest.
const LINES: [(Call, &str, (u32, u32, u32)); 20] = [
    (Call::Route, "", (2, 1, 1)),
    (Call::Check, "", (2, 1, 1)),
    (Call::Check, "R|2|4\nC|1|2|0\nL|1|0|0\n", (2, 4, 1)),
    (
        Call::Check,
        "R|2|4\nC|1|2|0\nL|1|0|0\nL|2|0|0\nZ|0|3\nZ|x",
        (2, 6, 1),
    ),
    (
        Call::Check,
        "R|2|4\nC|1|2|0\nL|1|0|0\nL|2|0|0\nZ|0|3",
        (2, 5, 6),
    ),
    // A false figure points to its line as a whole, where all lines have been read.
    (
        Call::Check,
        "R|2|4\nD|1|2|1|1|2|F\nC|1|2|0\nL|1|0|0\nL|2|0|0\nZ|0|3\n",
        (8, 2, 1),
    ),
    (Call::Check, "R|2|4\nD|1|2|1|1|2|F\nC|1|2|0\n", (2, 4, 1)),
    (Call::ReadMatrix(4, 0), "", (2, 1, 1)),
    (Call::ReadMatrix(4, 0), "0|1\n", (2, 2, 1)),
    (Call::ReadMatrix(4, 0), "0|1\n1|0\n0|x\n", (2, 3, 1)),
    (Call::ReadMatrix(4, 0), "0|x\n", (2, 1, 3)),
    (Call::ReadMatrix(4, 0), "0|1\n1|0|0\n", (2, 2, 4)),
    (Call::ReadMatrix(4, 0), "0|1\n1\n", (2, 2, 2)),
    (Call::ReadMatrix(4, 0), "0|1\n1|0", (2, 2, 4)),
    (Call::ReadMatrix(4, 0), "0\n", (3, 1, 1)),
    (Call::ReadMatrix(4, 0), "0|10000|20000\n", (7, 1, 3)),
    (Call::ReadMatrix(4, 0), "0|12\n12|3\n", (17, 2, 4)),
    (
        Call::ReadMatrix(4, 0),
        "0|12|3\n12|0|4\n3|5|0\n",
        (18, 2, 6),
    ),
    (Call::ReadMatrix(3, 0), "x", (20, 0, 0)),
    (
        Call::WriteMatrix,
        "R|2|4\nD|1|2|9999\nD|1|2|1\n",
        (19, 3, 1),
    ),
];

pub fn by_hand() -> Outcome {
    last_lines(Call::Route, "", &RINGS)?;
    last_lines(Call::Check, "", &RINGS)?;
    last_lines(Call::Route, "R|4|4\n", &ROWS)?;
    last_lines(Call::Check, "R|4|4\n", &EITHER)?;
    for (call, text, wanted) in LINES {
        same(text, refusal(call, text), wanted)?;
    }
    Ok(())
}

/// Whether some end makes the beginning a line of three numbers behind D. A number that
/// is begun needs no digit more, so that these ends are enough.
fn goes_on(begun: &[u8]) -> bool {
    let ends = [
        "",
        "\n",
        "1\n",
        "\t1\n",
        "1\t1\n",
        "\t1\t1\n",
        "1\t1\t1\n",
        "\t1\t1\t1\n",
    ];
    ends.iter().any(|end| {
        let text = [begun, end.as_bytes()].concat();
        let lines = table::lines(&text);
        lines.len() == 1 && table::numbers(&lines[0], b"D", 3).is_some()
    })
}

/// The same of an R line.
fn ring_goes_on(begun: &[u8]) -> bool {
    let ends = ["", "\n", "4\n", "\t4\n", "4\t4\n", "\t4\t4\n", "M\n"];
    ends.iter().any(|end| {
        let text = [begun, end.as_bytes()].concat();
        let lines = table::lines(&text);
        lines.len() == 1 && table::ring_fields(&lines[0]).is_some()
    })
}

/// Drawn lines of a kind, each made of a good one: the byte is the first at which no end
/// makes the line good.
fn by_ends_of(
    (seed, group): (u64, u64),
    good: &[u8],
    shapes: &[shape::Shape],
    goes_on: fn(&[u8]) -> bool,
) -> Outcome {
    for case in 0..4_000 {
        let mut rng = Rng::for_case(seed, group, case);
        let mut bytes = good.to_vec();
        for _ in 0..rng.between(0, 3) {
            let at = rng.below(bytes.len() + 1);
            let new = rng.pick(b"\t\t00123DMm x");
            bytes.splice(at..(at + rng.below(2)).min(bytes.len()), [new]);
        }
        let ended = rng.chance(2, 3);
        let end: &[u8] = if ended { b"\n" } else { b"" };
        let whole = [bytes.as_slice(), end].concat();
        let wanted = (1..=whole.len()).find(|length| !goes_on(&whole[..*length]));
        let bytes = bytes.as_slice();
        let got = first_fault(&Line { bytes, ended }, shapes) as usize;
        let words = barred(&whole);
        same(&words, got, wanted.unwrap_or(whole.len() + 1))?;
    }
    Ok(())
}

/// Rows and R lines.
pub fn by_ends(seed: u64) -> Outcome {
    let row = [shape::lettered(b"D", 3)];
    by_ends_of((seed, 1_005), b"D\t1\t20\t300", &row, goes_on)?;
    by_ends_of((seed, 1_006), b"R\t20\t4\tM", &shape::ring(), ring_goes_on)
}
