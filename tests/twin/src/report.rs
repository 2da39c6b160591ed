//! A report over a text of many plans (Rules, a report over many plans): its pieces,
//! what each gives as a sheet by itself, the totals of either family and their lines. It
//! is made of sentences, each of which a fault reads otherwise.

use crate::check;
use crate::family::{Family, FAMILIES};
use crate::limits::REPORT_TEXT;
use crate::table::{refuse, Refusal};
use crate::twin::{self, Answer};

/// What an accepted piece gives.
#[derive(Clone, Copy, PartialEq, Eq, Debug)]
pub struct Accepted {
    pub family: Family,
    /// The unsplit peak, in units.
    pub peak: i64,
    /// The across number of the cut that it names.
    pub across: i64,
}

/// Twice an unsplit peak, to an across number.
#[derive(Clone, Copy, PartialEq, Eq, Default, Debug)]
pub struct Ratio {
    pub twice: i64,
    pub across: i64,
}

/// What the plans of one family come to.
#[derive(Clone, Copy, PartialEq, Eq, Default, Debug)]
pub struct Sums {
    pub accepted: i64,
    pub peaks: i64,
    pub worst: Ratio,
}

#[derive(Clone, Copy, PartialEq, Eq, Debug)]
pub struct Totals {
    /// SONET first, then SDH.
    pub families: [Sums; 2],
    pub refused: i64,
}

/// The sentences, as they may be read.
#[derive(Clone, Copy)]
pub struct Sentences {
    /// Whether the text is too long.
    pub too_long: fn(&[u8]) -> bool,
    pub pieces: fn(&[u8]) -> Vec<&[u8]>,
    /// What a piece gives, None where it is refused.
    pub gives: fn(&[u8]) -> Option<Accepted>,
    pub enters: fn(&Accepted) -> bool,
    pub ratio: fn(&Accepted) -> Ratio,
    /// The worst of those that enter, in order.
    pub worst: fn(&[Ratio]) -> Option<Ratio>,
    /// The plans of a family put together.
    pub sums: fn(&[Accepted], Ratio) -> Sums,
    /// All of them: what the pieces give, and either family's sums.
    pub totals: fn(&[Option<Accepted>], [Sums; 2]) -> Totals,
    pub lines: fn(&Totals) -> String,
}

pub const SENTENCES: Sentences = Sentences {
    too_long,
    pieces,
    gives,
    enters: |plan| plan.across > 0,
    ratio,
    worst,
    sums,
    totals,
    lines,
};

/// 24.
pub const TOO_LONG: Refusal = Refusal {
    reason: 24,
    line: 0,
    byte: 0,
};

fn too_long(text: &[u8]) -> bool {
    text.len() > REPORT_TEXT
}

/// Whether a line starts at that place, with R.
pub fn starts_with_r(text: &[u8], at: usize) -> bool {
    (at == 0 || text[at - 1] == b'\n') && text[at] == b'R'
}

/// From the text's start, and from each line behind it that starts with R, to before the
/// next such line, or to the text's end.
pub fn pieces(text: &[u8]) -> Vec<&[u8]> {
    parted(text, |at| starts_with_r(text, at))
}

/// The text's parts, of which each but the first begins where it is said to; none of no
/// text.
pub fn parted(text: &[u8], begins: impl Fn(usize) -> bool) -> Vec<&[u8]> {
    let mut starts: Vec<usize> = (0..text.len())
        .filter(|at| *at == 0 || begins(*at))
        .collect();
    starts.push(text.len());
    let parts = starts.windows(2).map(|ends| &text[ends[0]..ends[1]]);
    parts.collect()
}

pub fn gives(piece: &[u8]) -> Option<Accepted> {
    let sheet = check::read(piece).ok()?;
    Some(Accepted {
        family: sheet.table.family,
        peak: sheet.plan.peak,
        across: sheet.plan.cut.across,
    })
}

pub fn ratio(plan: &Accepted) -> Ratio {
    Ratio {
        twice: 2 * plan.peak,
        across: plan.across,
    }
}

/// Whether the one is above the other.
pub fn above(one: &Ratio, other: &Ratio) -> bool {
    one.twice * other.across > other.twice * one.across
}

/// The first above which none is.
pub fn worst(ratios: &[Ratio]) -> Option<Ratio> {
    let is_worst = |ratio: &&Ratio| !ratios.iter().any(|other| above(other, ratio));
    ratios.iter().find(is_worst).copied()
}

pub fn sums(plans: &[Accepted], worst: Ratio) -> Sums {
    Sums {
        accepted: plans.len() as i64,
        peaks: plans.iter().map(|plan| plan.peak).sum(),
        worst,
    }
}

pub fn totals(given: &[Option<Accepted>], families: [Sums; 2]) -> Totals {
    let refused = given.iter().filter(|piece| piece.is_none()).count() as i64;
    Totals { families, refused }
}

/// What the pieces of a text give, in order.
pub fn given(text: &[u8], sentences: &Sentences) -> Vec<Option<Accepted>> {
    let given = (sentences.pieces)(text).into_iter().map(sentences.gives);
    given.collect()
}

/// The plans of a family, in order.
pub fn of_family(given: &[Option<Accepted>], family: Family) -> Vec<Accepted> {
    let plans = given.iter().flatten();
    plans
        .filter(|plan| plan.family == family)
        .copied()
        .collect()
}

/// The sums of some plans. Both numbers of the worst are 0 where none enters.
pub fn sum(plans: &[Accepted], sentences: &Sentences) -> Sums {
    let entering = plans.iter().filter(|plan| (sentences.enters)(plan));
    let ratios: Vec<Ratio> = entering.map(sentences.ratio).collect();
    let worst = (sentences.worst)(&ratios).unwrap_or_default();
    (sentences.sums)(plans, worst)
}

/// The totals of what pieces give.
pub fn total(given: &[Option<Accepted>], sentences: &Sentences) -> Totals {
    let families = FAMILIES.map(|family| sum(&of_family(given, family), sentences));
    (sentences.totals)(given, families)
}

/// The line of a family.
pub fn line(sums: &Sums) -> String {
    let Sums {
        accepted,
        peaks,
        worst: Ratio { twice, across },
    } = sums;
    format!("T\t{accepted}\t{peaks}\t{twice}\t{across}\n")
}

pub fn line_of_refused(totals: &Totals) -> String {
    format!("X\t{}\n", totals.refused)
}

/// SONET's line, SDH's line, and how many are refused.
pub fn lines(totals: &Totals) -> String {
    let [sonet, sdh] = &totals.families;
    line(sonet) + &line(sdh) + &line_of_refused(totals)
}

/// The lines, or 24.
pub fn answer(text: &[u8]) -> Answer {
    answer_read(text, &SENTENCES)
}

pub fn answer_read(text: &[u8], sentences: &Sentences) -> Answer {
    if (sentences.too_long)(text) {
        return refuse(TOO_LONG.reason, TOO_LONG.line, TOO_LONG.byte);
    }
    let totals = total(&given(text, sentences), sentences);
    Ok(twin::written((sentences.lines)(&totals).into_bytes()))
}
