//! Faults of a report: another reading of one sentence, or another reply. And what comes
//! to the same.

use crate::check::{self, QUESTIONS};
use crate::limits::{REPORT_TEXT, ROWS, TEXT};
use crate::mutant::{replying, reporting, Mutant};
use crate::report::{
    above, gives, line, line_of_refused, lines, parted, pieces, starts_with_r, sum, sums, totals,
    worst, Accepted, Ratio, Sentences, Sums, Totals, SENTENCES, TOO_LONG,
};
use crate::table::Refusal;
use crate::twin::{self, Answer, Call, Reply};

/// One sentence read otherwise, as a fault with this name.
macro_rules! reading {
    ($name:literal, $($sentence:ident: $other:expr),+) => {
        reporting(
            $name,
            Sentences {
                $($sentence: $other,)+
                ..SENTENCES
            },
        )
    };
}

/// The worst by another measure, the first of several.
fn by(ratios: &[Ratio], above: fn(&Ratio, &Ratio) -> bool) -> Option<Ratio> {
    let start = ratios.first().copied();
    start.map(|first| {
        let keep = |worst: Ratio, new: &Ratio| if above(new, &worst) { *new } else { worst };
        ratios.iter().fold(first, keep)
    })
}

fn last_worst(ratios: &[Ratio]) -> Option<Ratio> {
    let turned: Vec<Ratio> = ratios.iter().rev().copied().collect();
    worst(&turned)
}

fn in_32_bits(one: &Ratio, other: &Ratio) -> bool {
    let cut = |number: i64| number % (1 << 32);
    cut(one.twice * other.across) > cut(other.twice * one.across)
}

fn behind_cr(text: &[u8]) -> Vec<&[u8]> {
    parted(text, |at| {
        matches!(text[at - 1], b'\n' | b'\r') && text[at] == b'R'
    })
}

fn at_each_r(text: &[u8]) -> Vec<&[u8]> {
    parted(text, |at| text[at] == b'R')
}

fn before_a_tab(text: &[u8]) -> Vec<&[u8]> {
    parted(text, |at| {
        starts_with_r(text, at) && text.get(at + 1) == Some(&b'\t')
    })
}

fn from_first_r(text: &[u8]) -> Vec<&[u8]> {
    let first = (0..text.len()).find(|at| starts_with_r(text, *at));
    pieces(&text[first.unwrap_or(text.len())..])
}

/// What stands before the first R with the first piece.
fn first_two_together(text: &[u8]) -> Vec<&[u8]> {
    let first = (0..text.len()).find(|at| starts_with_r(text, *at));
    parted(text, |at| starts_with_r(text, at) && Some(at) != first)
}

fn behind_last_lines(text: &[u8]) -> Vec<&[u8]> {
    parted(text, |at| {
        let line = text[..at]
            .split_inclusive(|byte| *byte == b'\n')
            .next_back();
        let ended = line.is_some_and(|line| line.starts_with(b"Z") && line.ends_with(b"\n"));
        starts_with_r(text, at) || ended
    })
}

/// A last line that does not end left out.
fn whole_lines(text: &[u8]) -> Vec<&[u8]> {
    let end = text.iter().rposition(|byte| *byte == b'\n');
    pieces(&text[..end.map_or(0, |end| end + 1)])
}

fn none_of_no_text(text: &[u8]) -> Vec<&[u8]> {
    let pieces = pieces(text);
    if pieces.is_empty() {
        vec![text]
    } else {
        pieces
    }
}

fn figures(sheet: check::Sheet) -> Accepted {
    Accepted {
        family: sheet.table.family,
        peak: sheet.plan.peak,
        across: sheet.plan.cut.across,
    }
}

/// What is read alone, with no figure judged.
fn unjudged(piece: &[u8]) -> Option<Accepted> {
    let read = check::read_values(piece, QUESTIONS.rows).ok();
    read.map(figures)
}

/// Blank lines behind a piece are no fault.
fn trimmed(piece: &[u8]) -> Option<Accepted> {
    let end = piece.iter().rposition(|byte| *byte != b'\n');
    gives(&piece[..piece.len().min(end.map_or(0, |end| end + 2))])
}

fn with_lf(piece: &[u8]) -> Option<Accepted> {
    let lf: &[u8] = if piece.ends_with(b"\n") { b"" } else { b"\n" };
    gives(&[piece, lf].concat())
}

/// Only the first 32,768 bytes of a piece are looked at.
fn cut_short(piece: &[u8]) -> Option<Accepted> {
    gives(&piece[..piece.len().min(TEXT)])
}

fn with_sums(plans: &[Accepted], worst: Ratio, change: fn(&[Accepted], &mut Sums)) -> Sums {
    let mut sums = sums(plans, worst);
    change(plans, &mut sums);
    sums
}

fn with_totals(
    given: &[Option<Accepted>],
    families: [Sums; 2],
    change: fn(&[Option<Accepted>], &mut Totals),
) -> Totals {
    let mut totals = totals(given, families);
    change(given, &mut totals);
    totals
}

/// The plans of both families put together.
fn of_both(given: &[Option<Accepted>]) -> Sums {
    let plans: Vec<Accepted> = given.iter().flatten().copied().collect();
    sum(&plans, &SENTENCES)
}

fn largest(plans: &[Accepted]) -> i64 {
    plans.iter().map(|plan| plan.peak).max().unwrap_or(0)
}

/// The line of a family that has no plan left out.
fn of_families_met(totals: &Totals) -> String {
    let met = totals.families.iter().filter(|sums| sums.accepted > 0);
    met.map(line).collect::<String>() + &line_of_refused(totals)
}

/// One line for all, with the refused in it, as where there is one family.
fn in_one_line(totals: &Totals) -> String {
    let [one, other] = totals.families;
    let worst = if above(&other.worst, &one.worst) || one.worst.across == 0 {
        other.worst
    } else {
        one.worst
    };
    format!(
        "T\t{}\t{}\t{}\t{}\t{}\n",
        one.accepted + other.accepted,
        totals.refused,
        one.peaks + other.peaks,
        worst.twice,
        worst.across
    )
}

/// The old line for each family, with the refused of both in the first.
fn refused_in_lines(totals: &Totals) -> String {
    let of = |sums: &Sums, refused| {
        let Sums {
            accepted,
            peaks,
            worst,
        } = sums;
        let Ratio { twice, across } = worst;
        format!("T\t{accepted}\t{refused}\t{peaks}\t{twice}\t{across}\n")
    };
    let [sonet, sdh] = &totals.families;
    of(sonet, totals.refused) + &of(sdh, 0)
}

/// The smallest numbers of the same ratio.
fn in_lowest_terms(ratio: Ratio) -> Ratio {
    let (mut a, mut b) = (ratio.twice, ratio.across);
    while b > 0 {
        (a, b) = (b, a % b);
    }
    Ratio {
        twice: ratio.twice / a.max(1),
        across: ratio.across / a.max(1),
    }
}

/// The reply to another refusal where the answer is 24.
fn too_long_as(answer: &Answer, refusal: Refusal, buffer: &mut [u8]) -> Reply {
    if matches!(answer, Err(refused) if *refused == TOO_LONG) {
        return twin::refused(&refusal);
    }
    twin::reply(answer, buffer)
}

/// Where a piece is refused, all of them are, for its reason.
fn all_or_none(text: &[u8], answer: &Answer, buffer: &mut [u8]) -> Reply {
    let mut pieces = pieces(text).into_iter();
    match pieces.find_map(|piece| check::read(piece).err()) {
        Some(refusal) if answer.is_ok() => twin::refused(&refusal),
        _ => twin::reply(answer, buffer),
    }
}

pub static REPORT_FAULTS: [Mutant; 56] = [
    reading! { "report: the last of ratios that are alike", worst: last_worst },
    reading! { "report: the ratio turned over", worst: |ratios| {
        by(ratios, |one, other| above(other, one))
    } },
    reading! { "report: whole quotients", worst: |ratios| {
        by(ratios, |one, other| one.twice / one.across > other.twice / other.across)
    } },
    reading! { "report: quotients in hundredths", worst: |ratios| {
        by(ratios, |one, other| 100 * one.twice / one.across > 100 * other.twice / other.across)
    } },
    reading! { "report: the difference for the quotient", worst: |ratios| {
        by(ratios, |one, other| one.twice - one.across > other.twice - other.across)
    } },
    reading! { "report: the largest peak", worst: |ratios| {
        by(ratios, |one, other| one.twice > other.twice)
    } },
    reading! { "report: the smallest across number", worst: |ratios| {
        by(ratios, |one, other| one.across < other.across)
    } },
    reading! { "report: compared in 32 bits", worst: |ratios| by(ratios, in_32_bits) },
    reading! { "report: the first that enters", worst: |ratios| ratios.first().copied() },
    reading! { "report: the last that enters", worst: |ratios| ratios.last().copied() },
    reading! { "report: the first that enters left out", worst: |ratios| {
        worst(ratios.get(1..).unwrap_or_default())
    } },
    reading! { "report: of ratios that are alike the larger numbers", worst: |ratios| {
        by(ratios, |one, other| above(one, other) || !above(other, one) && one.across > other.across)
    } },
    reading! { "report: both numbers of different plans", worst: |ratios| {
        let twice = ratios.iter().map(|ratio| ratio.twice).max();
        worst(ratios).map(|worst| Ratio { twice: twice.unwrap_or(0), ..worst })
    } },
    reading! { "report: across number 0 enters", enters: |_| true },
    reading! { "report: across number 1 does not enter", enters: |plan| plan.across > 1 },
    reading! { "report: the peak for twice the peak", ratio: |plan| Ratio { twice: plan.peak, across: plan.across } },
    reading! { "report: twice the across number", ratio: |plan| {
        Ratio { twice: 2 * plan.peak, across: 2 * plan.across }
    } },
    reading! { "report: in lowest terms", worst: |ratios| worst(ratios).map(in_lowest_terms) },
    reading! { "report: R behind CR starts a piece", pieces: behind_cr },
    reading! { "report: each R starts a piece", pieces: at_each_r },
    reading! { "report: R and a tab start a piece", pieces: before_a_tab },
    reading! { "report: what stands before the first R left out", pieces: from_first_r },
    reading! { "report: what stands before the first R goes with the first piece", pieces: first_two_together },
    reading! { "report: a Z line ends a piece", pieces: behind_last_lines },
    reading! { "report: a last line with no LF left out", pieces: whole_lines },
    reading! { "report: no text has a piece", pieces: none_of_no_text },
    reading! { "report: no figure judged", gives: unjudged },
    reading! { "report: empty lines behind a piece taken", gives: trimmed },
    reading! { "report: final LF not asked for", gives: with_lf },
    reading! { "report: refused pieces not counted", totals: |given, families| {
        with_totals(given, families, |_, totals| totals.refused = 0)
    } },
    reading! { "report: all pieces counted as refused", totals: |given, families| {
        with_totals(given, families, |given, totals| totals.refused = given.len() as i64)
    } },
    reading! { "report: all pieces counted as accepted", totals: |given, families| {
        with_totals(given, families, |given, totals| totals.families[0].accepted = given.len() as i64)
    } },
    reading! { "report: across numbers added up", sums: |plans, worst| {
        with_sums(plans, worst, |plans, sums| sums.peaks = plans.iter().map(|plan| plan.across).sum())
    } },
    reading! { "report: the largest peak for the sum", sums: |plans, worst| {
        with_sums(plans, worst, |plans, sums| sums.peaks = largest(plans))
    } },
    reading! { "report: the sum in 16 bits", sums: |plans, worst| {
        with_sums(plans, worst, |_, sums| sums.peaks %= 65_536)
    } },
    reading! { "report: totals of both families added together", totals: |given, families| {
        with_totals(given, families, |given, totals| {
            totals.families = [of_both(given), Sums::default()];
        })
    } },
    reading! { "report: both families' totals on either line", totals: |given, families| {
        with_totals(given, families, |given, totals| totals.families = [of_both(given); 2])
    } },
    reading! { "report: the worst of both families on either line", totals: |given, families| {
        with_totals(given, families, |given, totals| {
            let worst = of_both(given).worst;
            for sums in &mut totals.families {
                sums.worst = worst;
            }
        })
    } },
    reading! { "report: SDH's worst for SONET's where SONET has none", totals: |given, families| {
        with_totals(given, families, |_, totals| {
            let [sonet, sdh] = &mut totals.families;
            if sonet.worst.across == 0 {
                sonet.worst = sdh.worst;
            }
        })
    } },
    reading! { "report: peaks of both families added up", totals: |given, families| {
        with_totals(given, families, |given, totals| totals.families[0].peaks = of_both(given).peaks)
    } },
    reading! { "report: SDH first", lines: |totals| {
        let [sonet, sdh] = &totals.families;
        line(sdh) + &line(sonet) + &line_of_refused(totals)
    } },
    reading! { "report: X before T", lines: |totals| {
        let [sonet, sdh] = &totals.families;
        line_of_refused(totals) + &line(sonet) + &line(sdh)
    } },
    reading! { "report: X between the families", lines: |totals| {
        let [sonet, sdh] = &totals.families;
        line(sonet) + &line_of_refused(totals) + &line(sdh)
    } },
    reading! { "report: the line of a family with no plan left out", lines: of_families_met },
    reading! { "report: X left out where none is refused", lines: |totals| {
        let [sonet, sdh] = &totals.families;
        let all = lines(totals);
        if totals.refused > 0 { all } else { line(sonet) + &line(sdh) }
    } },
    reading! { "report: one line for all", lines: in_one_line },
    reading! { "report: the refused in the lines of families", lines: refused_in_lines },
    reading! { "report: M on the lines of SDH", lines: |totals| {
        lines(totals).replacen("\nT", "\nT\tM", 1)
    } },
    reading! { "report: 65,536 bytes refused", too_long: |text| text.len() >= REPORT_TEXT },
    reading! { "report: 65,537 bytes read", too_long: |text| text.len() > REPORT_TEXT + 1 },
    reading! { "report: lengths in 17 bits", too_long: |text| text.len() % 131_072 > REPORT_TEXT },
    replying("report: 24 after 15", Call::Report, |_, answer, buffer| {
        let short = buffer.len() < 24;
        too_long_as(answer, if short { twin::NO_ROOM } else { TOO_LONG }, buffer)
    }),
    replying("report: 1 for 24", Call::Report, |_, answer, buffer| {
        too_long_as(
            answer,
            Refusal {
                reason: 1,
                ..TOO_LONG
            },
            buffer,
        )
    }),
    replying("report: 24 on line 1", Call::Report, |_, answer, buffer| {
        too_long_as(
            answer,
            Refusal {
                line: 1,
                ..TOO_LONG
            },
            buffer,
        )
    }),
    replying(
        "report: 24 with byte 1",
        Call::Report,
        |_, answer, buffer| {
            too_long_as(
                answer,
                Refusal {
                    byte: 1,
                    ..TOO_LONG
                },
                buffer,
            )
        },
    ),
    replying(
        "report: a piece that is refused refuses all",
        Call::Report,
        all_or_none,
    ),
];

/// Readings that come to the same.
pub static REPORT_SAME: [Mutant; 4] = [
    // the worst so far, with one more plan
    reading! { "report: the worst one by one", worst: |ratios| by(ratios, above) },
    // of an accepted sheet whose across number is 0 all amounts are 0
    reading! { "report: peak 0 does not enter", enters: |plan| plan.peak > 0 },
    // no sheet that is accepted is nearly as long
    reading! { "report: a piece's first 32,768 bytes alone", gives: cut_short },
    // each of these lines is a row, where the sheet has its form
    reading! { "report: more than 1,024 lines that start with D refused at once", gives: |piece| {
        let rows = piece.split(|byte| *byte == b'\n').filter(|line| line.starts_with(b"D"));
        if rows.count() > ROWS { None } else { gives(piece) }
    } },
];
