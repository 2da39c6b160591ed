//! The twin's own checks of judging values, run before any comparison: answers
//! worked out by hand, and that checking a text is reading it and then judging what
//! was read.

use crate::bars::tabbed;
use crate::check::{self, Finding};
use crate::checking_faults::judged_early;
use crate::rng::Rng;
use crate::selfcheck::{holds, same, Outcome};
use crate::sheets;
use crate::table::{Refusal, ROW_REASONS};
use crate::values::{self, Values};

/// The values of a stated sheet, by its number.
fn stated(at: usize) -> Result<Values, String> {
    let read = check::read_values(&tabbed(sheets::SHEETS[at]), &[]);
    let sheet = read.map_err(|refusal| format!("{}: {refusal:?}", sheets::SHEETS[at]))?;
    Ok(Values::of(&sheet))
}

fn finds(what: &str, values: &Values, reason: u32, place: u32) -> Outcome {
    same(what, values::judge(values), Finding { reason, place })
}

type Change = fn(&mut Values);

/// Changes of the square, each with the reason and the place that are then found.
const CHANGES: [(Change, u32, u32); 21] = [
    (|x| x.n = 65, 3, 0),
    (|x| (x.n, x.fibres) = (u32::MAX, 3), 3, 0),
    (|x| (x.fibres, x.rows[0].first) = (3, 0), 20, 0),
    (|x| x.rows[0].second = 5, 4, 1),
    (|x| x.rows[1].first = 4, 5, 2),
    (|x| x.rows.swap(0, 1), 6, 2),
    (|x| x.rows[1].amount = 10_000, 7, 2),
    (|x| x.rows[0].front = 2, 8, 1),
    (|x| x.rows[0].front = u32::MAX, 8, 1),
    (|x| (x.rows[0].front, x.rows[0].back) = (u32::MAX, 3), 8, 1),
    (|x| (x.rows[1].front, x.rows[1].back) = (2, 0), 9, 2),
    (|x| x.rows[1].way = 7, 0, 0),
    (|x| (x.g, x.links) = (3, Vec::new()), 10, 0),
    (|x| x.across = u32::MAX, 10, 0),
    (|x| x.links.truncate(3), 11, 0),
    (|x| x.links.clear(), 11, 0),
    (|x| x.links.push(x.links[0]), 11, 0),
    (|x| x.links[3].link = 3, 11, 4),
    (|x| (x.links[1].split, x.peak) = (1, 0), 11, 2),
    (|x| x.peak = 3, 12, 0),
    (|x| x.rows = vec![x.rows[1]; 1_025], 16, 1_025),
];

/// The square: 1-3 and 2-4 of 1, each halved, the one F and the other B.
pub fn by_hand() -> Outcome {
    let square = stated(0)?;
    finds("the square", &square, 0, 0)?;
    finds("13", &stated(8)?, 13, 0)?;
    finds("14", &stated(9)?, 14, 0)?;
    for (at, (change, reason, place)) in CHANGES.into_iter().enumerate() {
        let mut values = square.clone();
        change(&mut values);
        finds(
            &format!("change {at} of the square"),
            &values,
            reason,
            place,
        )?;
    }
    Ok(())
}

/// A damaged sheet gets what reading gives it, and where that is nothing what judging
/// finds against its values.
pub fn random_texts(seed: u64) -> Outcome {
    for case in 0..600 {
        let mut rng = Rng::for_case(seed, 1_001, case);
        let makes = [sheets::off_by_one, sheets::two_off, sheets::damaged_often];
        let made = makes[case as usize % 3](&mut rng, case);
        let text = made.ok_or("no sheet")?.text;
        let due = match check::read_values(&text, &ROW_REASONS) {
            Err(refusal) => Err(refusal),
            Ok(sheet) => match values::judge(&Values::of(&sheet)) {
                Finding { reason: 0, .. } => Ok(()),
                finding => Err(check::on_line(&sheet, finding)),
            },
        };
        let given = check::read(&text).map(|_| ());
        same("reading, then judging", given, due)?;
        let early = judged_early(&text).map(|_| ());
        let won = matches!((early, given), (Err(early), Err(given)) if wins(given, early));
        holds("a fault of form wins, and no other", given == early || won)?;
    }
    Ok(())
}

/// Whether the one is a fault of form, and the other a false figure above it.
fn wins(form: Refusal, figure: Refusal) -> bool {
    let of_form = form.reason <= 7 || form.reason == 16;
    of_form && (8..=12).contains(&figure.reason) && figure.line < form.line
}
