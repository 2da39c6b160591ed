//! The comparison of a sequence of calls of the working table. The library's
//! table lives in lent bytes and the twin's in its list, so a call that leaves
//! the two apart shows in the calls behind it. Its bytes are looked at where it
//! is known what they are: a refused call changes none, nor does one that only
//! reads.

use crate::compare::{fewer, pattern, words_of, written, Lend, GUARD, ROOM};
use crate::family::Family;
use crate::kit::Kit;
use crate::limits::OFFICES;
use crate::rules::Cut;
use crate::twin::Call;
use crate::working::{Ask, Asked, Told, WorkReply, Working, ASK_NAMES, PLACES};

/// The lent struct in words of 4 bytes, of which it has no part: a number for each two
/// links, some of the ring and the cut, and a word for each place.
pub const WORDS: usize = CUTS + OTHERS + PLACES;
/// So many pairs of links there are.
pub const CUTS: usize = (OFFICES * (OFFICES - 1) / 2) as usize;
/// Offices, fibres and family, and the largest cut.
pub const OTHERS: usize = 6;
/// Words on both sides of it that no call may change.
pub const GUARD_WORDS: usize = 8;

/// Words that nobody has made by calls.
pub fn noise(salt: u64) -> Vec<u32> {
    words_of(&pattern(4 * (WORDS + 2 * GUARD_WORDS), salt))
}

/// What has been counted.
#[derive(Default)]
pub struct WorkTally {
    pub comparisons: u64,
    /// Comparisons on tables of 16 offices and more.
    pub large: u64,
    /// By call.
    pub reasons: [[u64; 23]; ASK_NAMES.len()],
    /// Calls after which all places of 20, and of 64 offices were taken.
    pub full: [u64; 2],
    /// Tables written, read and routed.
    pub routed: u64,
    /// Calls made twice on tables that no calls made.
    pub strange: u64,
}

impl WorkTally {
    fn count(&mut self, ask: &Ask, told: Told, table: &Working) {
        self.comparisons += 1;
        self.large += u64::from(table.n >= 16);
        self.reasons[ask.place()][told.reason() as usize] += 1;
        if !matches!(ask, Ask::Row(_)) && table.places.iter().all(Option::is_some) {
            self.full[0] += u64::from(table.n == 20);
            self.full[1] += u64::from(table.n == OFFICES);
        }
    }
}

/// Where the two differ, in words.
pub type Compared<T> = Result<T, String>;

/// One table and the calls made with it so far.
pub struct Desk<'a> {
    kit: Kit,
    salt: u64,
    pub table: Working,
    words: Vec<u32>,
    pub asked: Vec<Ask>,
    last: WorkReply,
    pub tally: &'a mut WorkTally,
}

impl<'a> Desk<'a> {
    /// A desk whose table has been started on bytes that no calls made.
    pub fn started(
        kit: Kit,
        salt: u64,
        ring: Asked,
        tally: &'a mut WorkTally,
    ) -> Compared<Desk<'a>> {
        let mut desk = Desk {
            kit,
            salt,
            table: Working::fresh(2, 4, Family::Sonet),
            words: noise(salt),
            asked: Vec::new(),
            last: WorkReply::default(),
            tally,
        };
        desk.ask(Ask::Start(ring))?;
        Ok(desk)
    }

    pub fn kit(&self) -> Kit {
        self.kit
    }

    pub fn words(&self) -> &[u32] {
        &self.words
    }

    /// One call both ways.
    pub fn ask(&mut self, ask: Ask) -> Compared<Told> {
        self.asked.push(ask);
        let length = match ask {
            Ask::Write(lend) => lend.length(&self.table.text()),
            _ => 0,
        };
        let lent = GUARD..GUARD + length;
        let salt = self.salt.wrapping_add(self.asked.len() as u64);
        let mut expected = pattern(length + 2 * GUARD, salt);
        let (mut area, before) = (expected.clone(), self.words.clone());
        let by_twin = self.table.tell(&ask, &mut expected[lent.clone()]);
        let by_kit = self.kit.work(&ask, &mut self.words, &mut area, lent);
        let alters = ask.place() < 4 && by_twin.reason() == 0;
        let touched = touched(&before, &self.words, alters);
        if by_twin != by_kit || expected != area || touched {
            let bytes = if expected == area {
                ""
            } else {
                ", the buffer differs"
            };
            let touched = if touched {
                ", the table is touched"
            } else {
                ""
            };
            return Err(format!(
                "twin: {by_twin:?}\n  library: {by_kit:?}{bytes}{touched}"
            ));
        }
        if let (true, Told::Work(reply)) = (alters, by_twin) {
            self.last = reply;
        }
        self.tally.count(&ask, by_twin, &self.table);
        Ok(by_twin)
    }

    /// The row at every place, and beyond.
    pub fn all_rows(&mut self) -> Compared<()> {
        for place in 0..=PLACES as u32 + 1 {
            self.ask(Ask::Row(place))?;
        }
        Ok(())
    }

    /// What is written is read by the calls that read tables, and the C line of
    /// its sheet names the cut of the last accepted reply.
    pub fn routed(&mut self) -> Compared<()> {
        self.ask(Ask::Write(Lend::Need(0)))?;
        let mut area = vec![0; ROOM];
        let told = self.kit.work(
            &Ask::Write(Lend::Exactly(ROOM)),
            &mut self.words,
            &mut area,
            0..ROOM,
        );
        let Told::Text(reply) = told else {
            return Err(format!("not written: {told:?}"));
        };
        let text = area[..reply.length].to_vec();
        if written(self.kit, Call::Rewrite, &text)? != text {
            return Err("the text written is not read as it is".to_owned());
        }
        let sheet = written(self.kit, Call::Route, &text)?;
        written(self.kit, Call::RewriteSheet, &sheet)?;
        let cut = cut_of(&sheet);
        let last = Cut {
            g: i64::from(self.last.g),
            h: i64::from(self.last.h),
            across: i64::from(self.last.across),
        };
        if cut != Some(last) {
            return Err(format!("routed: {cut:?}, last reply: {:?}", self.last));
        }
        self.tally.routed += 1;
        Ok(())
    }
}

/// Whether a word that must stay has changed: those around the table always.
fn touched(before: &[u32], after: &[u32], alters: bool) -> bool {
    let end = GUARD_WORDS + WORDS;
    let around = before[..GUARD_WORDS] != after[..GUARD_WORDS] || before[end..] != after[end..];
    around || !alters && before != after
}

/// The C line of a sheet.
fn cut_of(sheet: &[u8]) -> Option<Cut> {
    let text = String::from_utf8_lossy(sheet);
    let line = text.lines().find(|line| line.starts_with('C'))?;
    let fields = line.split('\t').skip(1).map(|field| field.parse().ok());
    match fields.collect::<Option<Vec<i64>>>()?[..] {
        [g, h, across] => Some(Cut { g, h, across }),
        _ => None,
    }
}

/// The calls again, and where they end in a difference.
fn replay(kit: Kit, salt: u64, asked: &[Ask]) -> Option<String> {
    let mut tally = WorkTally::default();
    let Some(Ask::Start(ring)) = asked.first() else {
        return None;
    };
    let mut desk = match Desk::started(kit, salt, *ring, &mut tally) {
        Ok(desk) => desk,
        Err(words) => return Some(words),
    };
    asked[1..].iter().find_map(|ask| desk.ask(*ask).err())
}

/// Fewer calls behind the start that still end in a difference, in words.
pub fn shrunk(kit: Kit, salt: u64, asked: &[Ask], found: String) -> String {
    let (calls, less) = fewer(asked.to_vec(), 1, |calls| replay(kit, salt, calls));
    let words = less.unwrap_or(found);
    let last = calls.len().saturating_sub(30);
    let shown: Vec<String> = calls[last..].iter().map(|ask| format!("{ask:?}")).collect();
    format!("  {last} calls, then {}\n  {words}\n", shown.join(", "))
}
