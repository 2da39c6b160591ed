//! Reports over texts of many plans, by the library and by the twin: all groups, and what
//! must have been seen in them.

use crate::compare::Case;
use crate::count::{demands, Count};
use crate::groups::Make;
use crate::lends::Lends;
use crate::limits::{REPORT_TEXT, TEXT};
use crate::part::{Compared, Group, Part, Run};
use crate::report::{self, Accepted, Ratio, SENTENCES};
use crate::report_groups::REPORT_GROUPS;
use crate::rng::Rng;
use crate::twin::Call;

const REASONS: [usize; 3] = [0, 15, 24];

/// What has been counted.
#[derive(Default)]
pub struct ReportTally {
    lends: Lends,
    /// Texts of no piece, of one, of up to a hundred, and of more.
    pieces: [u64; 4],
    /// Texts all of whose pieces are accepted, some of them, and none.
    accepted: [u64; 3],
    /// Texts with a piece that no line with R begins, and with one over 32,768 bytes.
    headless: u64,
    long: u64,
    /// Texts with accepted plans of which none enters; with the worst ratio twice, in
    /// other numbers; and with several ratios that are alike as whole quotients.
    none: u64,
    ties: u64,
    rounded: u64,
    /// Texts with plans of both families, and of these such as have the worst ratio in the
    /// second line.
    families: u64,
    worse: u64,
    /// Texts as long as they may be, and one byte longer.
    longest: u64,
    too_long: u64,
}

/// Ratios in the order in which they enter.
fn ratios(given: &[Option<Accepted>]) -> Vec<Ratio> {
    let plans = given.iter().flatten();
    let entering = plans.filter(|plan| (SENTENCES.enters)(plan));
    entering.map(report::ratio).collect()
}

impl ReportTally {
    fn count_pieces(&mut self, text: &[u8], given: &[Option<Accepted>]) {
        let class = match given.len() {
            0 => 0,
            1 => 1,
            2..=100 => 2,
            _ => 3,
        };
        self.pieces[class] += 1;
        let accepted = given.iter().flatten().count();
        let whole = accepted == given.len();
        self.accepted[if whole {
            0
        } else if accepted > 0 {
            1
        } else {
            2
        }] += 1;
        let headless = text.first().is_some_and(|byte| *byte != b'R');
        self.headless += u64::from(headless && given.len() > 1);
        let long = report::pieces(text).iter().any(|piece| piece.len() > TEXT);
        self.long += u64::from(long && given.len() > 1);
    }

    fn count_ratios(&mut self, given: &[Option<Accepted>]) {
        let ratios = ratios(given);
        self.none += u64::from(ratios.is_empty() && given.iter().flatten().count() > 0);
        let Some(worst) = report::worst(&ratios) else {
            return;
        };
        let tied = |ratio: &&Ratio| !report::above(&worst, ratio) && **ratio != worst;
        self.ties += u64::from(ratios.iter().any(|ratio| tied(&ratio)));
        let whole = |ratio: &Ratio| ratio.twice / ratio.across;
        let rounded = |ratio: &Ratio| report::above(&worst, ratio) && whole(ratio) == whole(&worst);
        self.rounded += u64::from(ratios.iter().any(rounded));
    }

    fn count_families(&mut self, given: &[Option<Accepted>]) {
        let [sonet, sdh] = report::total(given, &SENTENCES).families;
        let of_both = sonet.accepted > 0 && sdh.accepted > 0;
        self.families += u64::from(of_both);
        self.worse += u64::from(of_both && report::above(&sdh.worst, &sonet.worst));
    }

    fn count_text(&mut self, text: &[u8]) {
        self.longest += u64::from(text.len() == REPORT_TEXT);
        self.too_long += u64::from(text.len() == REPORT_TEXT + 1);
        if !(SENTENCES.too_long)(text) {
            let given = report::given(text, &SENTENCES);
            self.count_pieces(text, &given);
            self.count_ratios(&given);
            self.count_families(&given);
        }
    }

    /// What must have been counted, and whether it was.
    fn demands(&self) -> [(&'static str, bool); 6] {
        [
            (
                "reports, 15 and 24 seen",
                self.lends.saw(&REASONS),
            ),
            (
                "texts of no piece, one, some and many seen",
                self.pieces.iter().all(|seen| *seen > 0),
            ),
            (
                "texts all, some and none of whose pieces are accepted seen",
                self.accepted.iter().all(|seen| *seen > 0),
            ),
            (
                "pieces with no R and pieces over 32,768 bytes among others seen",
                self.headless > 0 && self.long > 0,
            ),
            (
                "plans of both families in one text, and the worst ratio of all SDH's, seen",
                self.families > 0 && self.worse > 0,
            ),
            (
                "plans of which none enters, ties, ratios that are alike when rounded, and texts of 65,536 and 65,537 bytes seen",
                [self.none, self.ties, self.rounded, self.longest, self.too_long]
                    .iter()
                    .all(|seen| *seen > 0),
            ),
        ]
    }
}

impl Part for ReportTally {
    type Make = Make;

    const GROUPS: &'static [Group<Make>] = &REPORT_GROUPS;
    const ONE_IN: u64 = 10;
    const FIRST_GROUP: u64 = 10_000;

    /// The report over a case's text, whichever calls its group makes elsewhere.
    fn case(&mut self, run: Run, group: &Group<Make>, rng: &mut Rng, number: u64) -> Compared {
        let case: Case = (group.make)(rng, number)?;
        if run.describing {
            self.count_text(&case.text);
        }
        Some(self.lends.compare(run, Call::Report, &case, number))
    }

    fn counted(&self) -> Count {
        self.lends.print("reports");
        let [none, one, some, many] = self.pieces;
        println!("texts of no piece: {none}, one: {one}, up to 100: {some}, more: {many}");
        let [all, some, none] = self.accepted;
        println!("texts with all pieces accepted: {all}, some: {some}, none: {none}");
        let (headless, long) = (self.headless, self.long);
        println!("with a piece that has no R: {headless}, over 32,768 bytes: {long}");
        let (none, ties, rounded) = (self.none, self.ties, self.rounded);
        println!("none enters: {none}, ties: {ties}, alike when rounded: {rounded}");
        let (families, worse) = (self.families, self.worse);
        println!("of both families: {families}, with the worst ratio of SDH: {worse}");
        let (longest, too_long) = (self.longest, self.too_long);
        println!("of 65,536 bytes: {longest}, of 65,537: {too_long}");
        demands(&self.demands())
    }
}
