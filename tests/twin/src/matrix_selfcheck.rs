//! The twin's own checks of matrices, by hand: which refusal a matrix and a table
//! get, and what is made of those that are accepted.

use crate::bars::{barred, tabbed};
use crate::selfcheck::{same, Outcome};
use crate::twin::{self, Call};

/// What a text gets with room enough: the text made of it, or the refusal; tabs
/// are shown as |.
fn made(call: Call, text: &str) -> Result<String, (u32, u32)> {
    let answer = twin::answer(call, &tabbed(text));
    let text = answer.map(|granted| barred(&granted.text));
    text.map_err(crate::selfcheck::place)
}

/// A text and what it gets.
type Case<'a> = (&'a str, Result<&'a str, (u32, u32)>);

fn all(call: Call, wanted: &[Case]) -> Outcome {
    for (text, wanted) in wanted {
        same(text, made(call, text), wanted.map(str::to_string))?;
    }
    Ok(())
}

/// What is made of matrices, and which reason is given.
pub fn matrices() -> Outcome {
    all(Call::ReadMatrix(4, 0), &ACCEPTED)?;
    all(Call::ReadMatrix(2, 1), &OF_SDH)?;
    all(Call::ReadMatrix(2, 2), &OF_SDH)?;
    full()?;
    lengths()?;
    all(Call::ReadMatrix(4, 0), &REFUSED)
}

const ACCEPTED: [Case; 3] = [
    (
        "0|2|0|5|0\n2|0|9|11|0\n0|9|0|4|3\n5|11|4|0|0\n0|0|3|0|0\n",
        Ok("R|5|4\nD|1|2|2\nD|1|4|5\nD|2|3|9\nD|2|4|11\nD|3|4|4\nD|3|5|3\n"),
    ),
    ("0|0\n0|0\n", Ok("R|2|4\n")),
    ("0|1\n1|0\n", Ok("R|2|4\nD|1|2|1\n")),
];

const OF_SDH: [Case; 2] = [
    ("0|0\n0|0\n", Ok("R|2|2|M\n")),
    ("0|1\n1|0\n", Ok("R|2|2|M\nD|1|2|1\n")),
];

/// Each reason, and which of two comes first.
const REFUSED: [Case; 15] = [
    ("", Err((2, 1))),
    ("0\n", Err((3, 1))),
    // A first line that is badly spelled anywhere is 2, before 3.
    ("0|x|0\n", Err((2, 1))),
    ("x\n", Err((2, 1))),
    ("0|0\n0|0", Err((2, 2))),
    ("0|0\n0|0\n0|0\n", Err((2, 3))),
    ("0|0\n0|0|0\n", Err((2, 2))),
    ("0|10000\n0\n", Err((7, 1))),
    ("0|0\n10000|x\n", Err((2, 2))),
    // A 7 on the last line beats a 17 on the first.
    ("1|0\n0|10000\n", Err((7, 2))),
    ("1|0\n0|0\n", Err((17, 1))),
    ("0|0\n0|9999\n", Err((17, 2))),
    ("0|0\n1|0\n", Err((18, 1))),
    ("0|1|2\n1|5|3\n2|4|0\n", Err((17, 2))),
    ("0|1|2\n1|0|3\n2|4|7\n", Err((18, 2))),
];

/// Lines of zeros, each of so many fields.
fn zeros(fields: usize, lines: usize) -> String {
    (vec!["0"; fields].join("|") + "\n").repeat(lines)
}

/// As many offices as there may be, a line fewer and an office more.
fn full() -> Outcome {
    all(
        Call::ReadMatrix(4, 0),
        &[
            (&zeros(64, 64), Ok("R|64|4\n")),
            (&zeros(64, 63), Err((2, 64))),
            (&zeros(65, 65), Err((3, 1))),
        ],
    )
}

/// One line as long as a text may be, and two bytes longer.
fn lengths() -> Outcome {
    all(
        Call::ReadMatrix(4, 0),
        &[
            (&zeros(16_384, 1), Err((3, 1))),
            (&zeros(16_385, 1), Err((1, 0))),
        ],
    )
}

/// What is added up, and where a sum passes.
pub fn sums() -> Outcome {
    all(
        Call::WriteMatrix,
        &[
            ("R|2|4\n", Ok("0|0\n0|0\n")),
            (
                "R|3|4\nD|1|2|5\nD|1|2|6\nD|2|3|0\n",
                Ok("0|11|0\n11|0|0\n0|0|0\n"),
            ),
            ("R|2|4\nD|1|2|9999\nD|1|2|0\n", Ok("0|9999\n9999|0\n")),
            (
                "R|2|4\nD|1|2|9999\nD|1|2|0\nD|1|2|1\nD|1|2|1\n",
                Err((19, 4)),
            ),
            (
                "R|3|4\nD|1|2|9999\nD|1|3|9999\nD|1|3|1\nD|2|3|10000\n",
                Err((7, 5)),
            ),
            (
                "R|3|4\nD|1|2|9999\nD|1|3|9999\nD|1|3|1\nD|2|3|9999\nD|2|3|1\n",
                Err((19, 4)),
            ),
            ("R|3|4\nD|1|2|1\nD|1|2|9999\nD|1|3", Err((2, 4))),
        ],
    )
}
