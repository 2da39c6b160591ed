//! The twin's own checks of reports: texts by hand; and that damage stays in its piece.

use crate::bars::{barred, tabbed};
use crate::gen;
use crate::limits::REPORT_TEXT;
use crate::report::{self, Accepted, SENTENCES};
use crate::report_groups::{several, two_offices, SMALLEST};
use crate::rng::Rng;
use crate::selfcheck::{holds, same, Outcome};
use crate::twin::{self, Call};

/// Texts, each with the report that it has by hand.
pub const BY_HAND: [(&str, &str); 26] = [
    ("", "T|0|0|0|0\nT|0|0|0|0\nX|0\n"),
    ("\n", "T|0|0|0|0\nT|0|0|0|0\nX|1\n"),
    ("x", "T|0|0|0|0\nT|0|0|0|0\nX|1\n"),
    ("R", "T|0|0|0|0\nT|0|0|0|0\nX|1\n"),
    ("R\n", "T|0|0|0|0\nT|0|0|0|0\nX|1\n"),
    ("R\nR", "T|0|0|0|0\nT|0|0|0|0\nX|2\n"),
    ("\nR", "T|0|0|0|0\nT|0|0|0|0\nX|2\n"),
    ("xR\nR\n", "T|0|0|0|0\nT|0|0|0|0\nX|2\n"),
    ("R\rR\r\nR", "T|0|0|0|0\nT|0|0|0|0\nX|2\n"),
    ("D|1|2|5\nC|1|2|5\n", "T|0|0|0|0\nT|0|0|0|0\nX|1\n"),
    (SMALLEST, "T|1|0|0|0\nT|0|0|0|0\nX|0\n"),
    // one across 5 whose peak is 5, behind a smallest one and before a line that is left over
    (
        "R|2|4\nC|1|2|0\nL|1|0|0\nL|2|0|0\nZ|0|3\nR|2|4\nD|1|2|5|5|5|F\nC|1|2|5\nL|1|5|5\nL|2|5|0\nZ|5|12\n",
        "T|2|5|10|5\nT|0|0|0|0\nX|0\n",
    ),
    (
        "R|2|4\nD|1|2|5|5|5|F\nC|1|2|5\nL|1|5|5\nL|2|5|0\nZ|5|12\nZ|0|0\nR|2|4\nC|1|2|0\nL|1|0|0\nL|2|0|0\nZ|0|3\n",
        "T|1|0|0|0\nT|0|0|0|0\nX|1\n",
    ),
    // the last sheet's LF is missing
    ("R|2|4\nC|1|2|0\nL|1|0|0\nL|2|0|0\nZ|0|3", "T|0|0|0|0\nT|0|0|0|0\nX|1\n"),
    // 2 of 1 and 10 of 5 are alike: the first stands
    (
        "R|2|4\nD|1|2|1|1|1|F\nC|1|2|1\nL|1|1|1\nL|2|1|0\nZ|1|3\nR|2|4\nD|1|2|5|5|5|F\nC|1|2|5\nL|1|5|5\nL|2|5|0\nZ|5|12\n",
        "T|2|6|2|1\nT|0|0|0|0\nX|0\n",
    ),
    (
        "R|2|4\nD|1|2|5|5|5|F\nC|1|2|5\nL|1|5|5\nL|2|5|0\nZ|5|12\nR|2|4\nD|1|2|1|1|1|F\nC|1|2|1\nL|1|1|1\nL|2|1|0\nZ|1|3\n",
        "T|2|6|10|5\nT|0|0|0|0\nX|0\n",
    ),
    // 4 of 2 is worse than 38 of 28, and nothing is left of a sheet that is no plan's
    (
        "R|5|4\nD|1|2|2|4|0|F\nD|1|4|5|0|10|B\nD|2|3|9|18|0|F\nD|2|4|11|10|12|B\nD|3|4|4|8|0|F\nD|3|5|3|6|0|F\nC|2|4|28\n\
         L|1|16|13\nL|2|28|9\nL|3|24|7\nL|4|28|19\nL|5|22|16\nZ|19|48\n\
         R|4|4\nD|1|3|1|1|1|F\nD|2|4|1|1|1|B\nC|1|3|2\nL|1|2|2\nL|2|2|1\nL|3|2|0\nL|4|2|1\nZ|2|3\n\
         R|4|4\nD|1|2|1|0|2|B\nC|1|2|1\nL|1|0|0\nL|2|2|1\nL|3|2|1\nL|4|2|1\nZ|1|3\n",
        "T|2|21|4|2\nT|0|0|0|0\nX|1\n",
    ),
    // an R that begins no line
    (
        "R|2|4\nC|1|2|0\nL|1|0|0\nL|2|0|0\nZ|0|3\n R|2|4\nC|1|2|0\nL|1|0|0\nL|2|0|0\nZ|0|3\n",
        "T|0|0|0|0\nT|0|0|0|0\nX|1\n",
    ),
    (
        "E|2|1|1\nR|2|4\nC|1|2|0\nL|1|0|0\nL|2|0|0\nZ|0|3\n",
        "T|1|0|0|0\nT|0|0|0|0\nX|1\n",
    ),
    // a row that is whole, on both fibres' rings
    (
        "R|2|2\nD|1|2|385|385|385|F\nC|1|2|385\nL|1|385|385\nL|2|385|0\nZ|385|0\nRR\n",
        "T|1|385|770|385\nT|0|0|0|0\nX|1\n",
    ),
    // SDH, alone and beside SONET, in either order
    (
        "R|2|4|M\nC|1|2|0\nL|1|0|0\nL|2|0|0\nZ|0|1\n",
        "T|0|0|0|0\nT|1|0|0|0\nX|0\n",
    ),
    (
        "R|2|4\nD|1|2|5|5|5|F\nC|1|2|5\nL|1|5|5\nL|2|5|0\nZ|5|12\nR|2|4|M\nD|1|2|7|7|7|F\nC|1|2|7\nL|1|7|7\nL|2|7|0\nZ|7|16\n",
        "T|1|5|10|5\nT|1|7|14|7\nX|0\n",
    ),
    (
        "R|2|4|M\nD|1|2|7|7|7|F\nC|1|2|7\nL|1|7|7\nL|2|7|0\nZ|7|16\nR|2|4\nD|1|2|5|5|5|F\nC|1|2|5\nL|1|5|5\nL|2|5|0\nZ|5|12\nR\n",
        "T|1|5|10|5\nT|1|7|14|7\nX|1\n",
    ),
    // the worst of SDH is not that of all: 4 of 2 is SONET's
    (
        "R|4|4\nD|1|3|1|1|1|F\nD|2|4|1|1|1|B\nC|1|3|2\nL|1|2|2\nL|2|2|1\nL|3|2|0\nL|4|2|1\nZ|2|3\n\
         R|5|4|M\nD|1|2|2|4|0|F\nD|1|4|5|0|10|B\nD|2|3|9|18|0|F\nD|2|4|11|10|12|B\nD|3|4|4|8|0|F\nD|3|5|3|6|0|F\nC|2|4|28\n\
         L|1|16|13\nL|2|28|9\nL|3|24|7\nL|4|28|19\nL|5|22|16\nZ|19|64\n",
        "T|1|2|4|2\nT|1|19|38|28\nX|0\n",
    ),
    // either family's size on a sheet of the other
    (
        "R|2|4|M\nC|1|2|0\nL|1|0|0\nL|2|0|0\nZ|0|3\nR|2|4\nC|1|2|0\nL|1|0|0\nL|2|0|0\nZ|0|1\n",
        "T|0|0|0|0\nT|0|0|0|0\nX|2\n",
    ),
    (
        "R|2|4|m\nC|1|2|0\nL|1|0|0\nL|2|0|0\nZ|0|1\nR|2|4|M\nC|1|2|0\nL|1|0|0\nL|2|0|0\nZ|0|1",
        "T|0|0|0|0\nT|0|0|0|0\nX|2\n",
    ),
];

fn reported(text: &[u8]) -> Result<String, u32> {
    let answer = twin::answer(Call::Report, text);
    let line = answer.map(|granted| barred(&granted.text));
    line.map_err(|refusal| refusal.reason)
}

pub fn by_hand() -> Outcome {
    for (text, line) in BY_HAND {
        same(text, reported(&tabbed(text)), Ok(line.to_owned()))?;
    }
    let smallest = tabbed(SMALLEST).repeat(1_820);
    same(
        "as many as there may be",
        reported(&smallest),
        Ok("T|1820|0|0|0\nT|0|0|0|0\nX|0\n".to_owned()),
    )?;
    let most = b"R\n".repeat(REPORT_TEXT / 2);
    same(
        "pieces of two bytes",
        reported(&most),
        Ok("T|0|0|0|0\nT|0|0|0|0\nX|32768\n".to_owned()),
    )?;
    same(
        "65,537 bytes",
        reported(&[&most[..], b"R"].concat()),
        Err(24),
    )?;
    let ties = [two_offices(7), two_offices(3), two_offices(9_999)];
    same(
        "ties",
        reported(&ties.concat()),
        Ok("T|3|10009|14|7\nT|0|0|0|0\nX|0\n".to_owned()),
    )
}

/// The pieces are such as put together make the text, each with no line behind its first
/// that starts with R, and each but the first starting with one.
fn parts(text: &[u8]) -> Outcome {
    let pieces = report::pieces(text);
    holds("put together they are the text", pieces.concat() == text)?;
    for (at, piece) in pieces.iter().enumerate() {
        let ends = at + 1 == pieces.len() || piece.ends_with(b"\n");
        holds("each but the last ends with LF", ends)?;
        holds(
            "each but the first starts with R",
            at == 0 || piece.starts_with(b"R"),
        )?;
        let lines = gen::lines_of(piece);
        let later = lines.iter().skip(1).any(|line| line.starts_with(b"R"));
        holds(
            "none is empty, and no later line starts with R",
            !lines.is_empty() && !later,
        )?;
    }
    Ok(())
}

/// Damage to a text: the bytes from one place to another become others.
struct Damage {
    from: usize,
    to: usize,
    put: Vec<u8>,
}

impl Damage {
    fn drawn(rng: &mut Rng, text: &[u8]) -> Damage {
        let from = rng.below(text.len() + 1);
        let most = (from + 9).min(text.len());
        let count = rng.between(0, 6);
        let put = (0..count).map(|_| rng.pick(b"RDCLZFB\t\t\n\n\r 0123456789"));
        Damage {
            put: put.collect(),
            to: rng.between(from as i64, most as i64) as usize,
            from,
        }
    }

    fn done(&self, text: &[u8]) -> Vec<u8> {
        [&text[..self.from], &self.put, &text[self.to..]].concat()
    }

    /// Whether no line that starts with R begins in what is damaged, nor in what is put
    /// there, and those behind it are the same.
    fn harmless(&self, before: &[u8], after: &[u8]) -> bool {
        let end = self.from + self.put.len();
        let within = |text: &[u8], to| (self.from..to).any(|at| report::starts_with_r(text, at));
        !within(before, self.to)
            && !within(after, end)
            && r_lines_from(before, self.to) == r_lines_from(after, end)
    }
}

/// How far from the text's end lines start with R, of those from one place on.
fn r_lines_from(text: &[u8], from: usize) -> Vec<usize> {
    let lines = (from..text.len()).filter(|at| report::starts_with_r(text, *at));
    lines.map(|at| text.len() - at).collect()
}

/// How many of the first are the same in both.
fn common<'a>(
    one: impl Iterator<Item = &'a Option<Accepted>>,
    other: impl Iterator<Item = &'a Option<Accepted>>,
) -> usize {
    one.zip(other)
        .take_while(|(one, other)| one == other)
        .count()
}

/// One piece at most gives something else; it may come to be, or to be none, at the
/// text's start.
fn stays(before: &[u8], after: &[u8]) -> Outcome {
    let was = report::given(before, &SENTENCES);
    let is = report::given(after, &SENTENCES);
    let same = common(was.iter(), is.iter()) + common(was.iter().rev(), is.iter().rev());
    let others = was.len().max(is.len()).saturating_sub(same);
    holds("one piece alone gives something else", others <= 1)
}

/// Texts whose pieces are what four properties make them, and damage to them. At least
/// a quarter of it has to be harmless.
pub fn random_damage(seed: u64) -> Outcome {
    let mut tried = 0;
    for case in 0..2_000 {
        let mut rng = Rng::for_case(seed, 10_500, case);
        let text = several(&mut rng);
        let damage = Damage::drawn(&mut rng, &text);
        let after = damage.done(&text);
        parts(&text)?;
        parts(&after)?;
        if damage.harmless(&text, &after) {
            tried += 1;
            let outcome = stays(&text, &after);
            outcome
                .map_err(|what| format!("seed {seed}, text {case}: {what}\n{}", barred(&after)))?;
        }
    }
    holds("harmless damage", tried > 500)
}
