//! The twin's own checks, run before any comparison. The figures are those of
//! the stated cases (Rules, stated cases) and, of circuits, worked out by hand;
//! the theorems are those that the rules state. A failure here means that the
//! twin misreads the rules.

use crate::bars::{barred, tabbed};
use crate::check;
use crate::foreign;
use crate::gen;
use crate::rng::Rng;
use crate::rules::{self, Plan, Sent, Way};
use crate::sheet;
use crate::sheets;
use crate::table::{self, Refusal, Table};
use crate::twin::{self, Call, Pair};

pub type Outcome = Result<(), String>;

pub fn same<T: PartialEq + std::fmt::Debug>(what: &str, got: T, wanted: T) -> Outcome {
    if got == wanted {
        return Ok(());
    }
    Err(format!("{what}: {got:?}, not {wanted:?}"))
}

pub fn holds(what: &str, true_here: bool) -> Outcome {
    if true_here {
        return Ok(());
    }
    Err(what.to_string())
}

/// A table given with tabs shown as |.
pub fn table(text: &str) -> Result<Table, String> {
    let read = table::read(&tabbed(text));
    read.map_err(|refusal| format!("{text}: {refusal:?}"))
}

/// A plan as a few numbers and letters.
fn splits(sent: &[Sent]) -> Vec<(i64, i64)> {
    sent.iter().map(|sent| (sent.front, sent.back)).collect()
}

pub fn letters(ways: &[Way]) -> String {
    let letter = |way: &Way| if *way == Way::F { 'F' } else { 'B' };
    ways.iter().map(letter).collect()
}

fn cut(plan: &Plan) -> (i64, i64, i64) {
    (plan.cut.g, plan.cut.h, plan.cut.across)
}

/// The square: the whole output, M = 2, bound 4 <= 2 + 3.
pub fn square() -> Outcome {
    let text = "R\t4\t4\nD\t1\t3\t1\nD\t2\t4\t1\n";
    let wanted = "R|4|4\nD|1|3|1|1|1|F\nD|2|4|1|1|1|B\nC|1|3|2\nL|1|2|2\nL|2|2|1\nL|3|2|0\n\
                  L|4|2|1\nZ|2|3\n";
    let answer = twin::answer(Call::Route, text.as_bytes());
    let got = answer.map(|granted| barred(&granted.text));
    same("the square", got, Ok(wanted.to_string()))?;
    theorems(&table(text)?)
}

/// The ring of five.
pub fn ring_of_five() -> Outcome {
    let table = table("R|5|4\nD|1|2|2\nD|1|4|5\nD|2|3|9\nD|2|4|11\nD|3|4|4\nD|3|5|3\n")?;
    let plan = rules::plan(&table);
    same("cut", cut(&plan), (2, 4, 28))?;
    let sent = splits(&rules::rule_b(&table, 28));
    same("rule B on 1-4", sent[1], (6, 4))?;
    same("rule B on 2-4", sent[3], (4, 18))?;
    let sent = splits(&plan.sent);
    same("rule C on 1-4", sent[1], (0, 10))?;
    same("rule C on 2-4", sent[3], (10, 12))?;
    same("split loads", plan.split.clone(), vec![16, 28, 24, 28, 22])?;
    same("directions", letters(&plan.ways).as_str(), "FBFBFF")?;
    same("unsplit loads", plan.unsplit, vec![13, 9, 7, 19, 16])?;
    theorems(&table)
}

/// The ring of eight.
pub fn ring_of_eight() -> Outcome {
    let table = table("R|8|4\nD|1|4|1\nD|2|3|1\nD|5|8|2\nD|6|7|2\n")?;
    let plan = rules::plan(&table);
    same("cut", cut(&plan), (2, 6, 6))?;
    let split: Vec<bool> = plan.sent.iter().map(rules::is_split).collect();
    same("split rows", split, vec![false, false, false, true])?;
    same("6-7", splits(&plan.sent)[3], (2, 2))?;
    same("directions", letters(&plan.ways).as_str(), "FFFF")?;
    same("loads", plan.unsplit, vec![1, 2, 1, 0, 2, 4, 2, 0])?;
    same("peak", plan.peak, 4)?;
    theorems(&table)
}

/// n = 2 with no rows, 5, 768 and 769; n = 4, 1-2 of 1.
pub fn small_rings() -> Outcome {
    let plan = rules::plan(&table("R|2|4\n")?);
    same("no rows", cut(&plan), (1, 2, 0))?;
    same(
        "no rows",
        (plan.split, plan.unsplit),
        (vec![0, 0], vec![0, 0]),
    )?;
    same("no rows", (plan.peak, plan.size), (0, 3))?;
    let plan = rules::plan(&table("R|2|4\nD|1|2|5\n")?);
    same("1-2 of 5", splits(&plan.sent), vec![(5, 5)])?;
    same("1-2 of 5", letters(&plan.ways).as_str(), "F")?;
    same(
        "1-2 of 5",
        (plan.split, plan.unsplit),
        (vec![5, 5], vec![5, 0]),
    )?;
    same("1-2 of 5", plan.size, 12)?;
    same("768", rules::plan(&table("R|2|4\nD|1|2|768\n")?).size, 768)?;
    same("769", rules::plan(&table("R|2|4\nD|1|2|769\n")?).size, 0)?;
    let plan = rules::plan(&table("R|4|4\nD|1|2|1\n")?);
    same("1-2 of 1", splits(&plan.sent), vec![(1, 1)])?;
    same("1-2 of 1", letters(&plan.ways).as_str(), "F")?;
    same("1-2 of 1", cut(&plan), (1, 2, 1))?;
    same("1-2 of 1", plan.split, vec![1; 4])?;
    same("1-2 of 1", plan.peak, 1)
}

/// Where the sizes of SDH end, with four fibres and with two, and that all else of a plan
/// is that of SONET.
pub fn families() -> Outcome {
    for (text, size) in [
        ("R|2|4|M\n", 1),
        ("R|2|4|M\nD|1|2|1\n", 1),
        ("R|2|4|M\nD|1|2|2\n", 4),
        ("R|2|4|M\nD|1|2|256\n", 256),
        ("R|2|4|M\nD|1|2|257\n", 0),
        ("R|2|2|M\nD|1|2|128\n", 256),
        ("R|2|2|M\nD|1|2|129\n", 0),
        ("R|2|2|M\nD|1|2|2\n", 4),
        ("R|2|2|M\nD|1|2|3\n", 16),
    ] {
        same(text, rules::plan(&table(text)?).size, size)?;
    }
    let rows = "D|1|2|2\nD|1|4|5\nD|2|3|9\nD|2|4|11\nD|3|4|4\nD|3|5|3\n";
    let of_sonet = rules::plan(&table(&format!("R|5|4\n{rows}"))?);
    let of_sdh = rules::plan(&table(&format!("R|5|4|M\n{rows}"))?);
    same("sizes", (of_sonet.size, of_sdh.size), (48, 64))?;
    same("all but the size", Plan { size: 48, ..of_sdh }, of_sonet)
}

/// The refusals among the stated cases.
pub fn refusals() -> Outcome {
    let wanted = [
        ("", 2, 1),
        ("R|1|4\n", 3, 1),
        ("R|65|4\n", 3, 1),
        ("R|64|4\n", 0, 0),
        ("R|4|4\nD|1|2|9999\n", 0, 0),
        ("R|4|4\nD|1|2|10000\n", 7, 2),
        ("R|4|4\nD|5|2|10000\n", 4, 2),
        ("R|4|4\nD|1|2|0\n", 15, 0),
        ("R|4|2\n", 0, 0),
        ("R|4|3\nD|5|2|1\n", 20, 1),
        ("R|65|3\n", 3, 1),
        ("R|4\n", 2, 1),
        ("R|4|4|4\n", 2, 1),
        ("R|4|4|M\n", 0, 0),
        ("R|64|2|M\n", 0, 0),
        ("R|4|4|m\n", 2, 1),
        ("R|65|3|M\n", 3, 1),
        ("R|4|3|M\nx\n", 20, 1),
    ];
    for (text, reason, line) in wanted {
        let answer = twin::answer(Call::Route, &tabbed(text));
        let need = answer.as_ref().map_or(0, |granted| granted.text.len());
        let short = if reason == 15 { 1 } else { 0 };
        let reply = twin::reply(&answer, &mut vec![0; need - short]);
        same(text, (reply.reason, reply.line), (reason, line))?;
    }
    Ok(())
}

/// The stated sheets that are refused: which of them, and its reason, line and byte.
const REFUSED: [(usize, u32, u32, u32); 29] = [
    (8, 13, 0, 0),
    (9, 14, 0, 0),
    (11, 9, 2, 1),
    (12, 3, 1, 3),
    (13, 3, 1, 3),
    (15, 7, 2, 7),
    (16, 4, 2, 3),
    (17, 2, 1, 1),
    (18, 2, 2, 1),
    (24, 6, 4, 1),
    (28, 12, 6, 1),
    (29, 20, 1, 5),
    (30, 3, 1, 3),
    (31, 3, 1, 3),
    (32, 2, 1, 4),
    (33, 2, 1, 7),
    (34, 12, 5, 1),
    (41, 12, 5, 1),
    (42, 12, 5, 1),
    (43, 2, 1, 7),
    (44, 2, 1, 7),
    (45, 2, 1, 8),
    (46, 2, 1, 8),
    (47, 2, 1, 7),
    (48, 2, 1, 5),
    (49, 2, 1, 5),
    (50, 20, 1, 5),
    (51, 3, 1, 3),
    (52, 2, 1, 8),
];

/// The stated sheets: reason, line, byte, and the parallel pair.
pub fn sheets() -> Outcome {
    let accepted = [
        0, 1, 2, 3, 4, 5, 6, 7, 10, 14, 20, 25, 26, 27, 35, 36, 37, 38, 39, 40,
    ];
    let yes = accepted.map(|at| (at, 0, 0, 0, 0, 0));
    let no = REFUSED.map(|(at, reason, line, byte)| (at, reason, line, byte, 0, 0));
    let pairs = [(19, 1, 2), (21, 1, 2), (22, 2, 3), (23, 2, 3)];
    let pairs = pairs.map(|(at, first, second)| (at, 0, 0, 0, first, second));
    for (at, reason, line, byte, first, second) in [yes.as_slice(), &no, &pairs].concat() {
        let text = tabbed(sheets::SHEETS[at]);
        let got = twin::pair(&twin::answer(Call::Parallel, &text));
        let wanted = Pair::of(Refusal { reason, line, byte }, (first, second));
        same(sheets::SHEETS[at], got, wanted)?;
    }
    Ok(())
}

pub fn place(refusal: Refusal) -> (u32, u32) {
    (refusal.reason, refusal.line)
}

/// The rows of a ring of 3, each with the same end.
fn text_of(rows: &str, end: &str) -> Vec<u8> {
    let rows = rows.replace(' ', &format!("{end}\nD|"));
    tabbed(&format!("R|3|4\nD|{rows}{end}\n"))
}

/// Rows with the same nodes: how they are refused, sent and untangled.
pub fn circuits() -> Outcome {
    circuits_refused()?;
    circuits_sent()?;
    circuits_untangled()
}

/// The order of 6, 16 and 7, and as many rows as there may be.
fn circuits_refused() -> Outcome {
    let wanted = [
        ("1|2|1 1|2|1 1|2|0", 0, None),
        ("1|3|1 1|3|1 1|2|1", 0, Some((6, 4))),
        ("2|3|1 1|3|1", 0, Some((6, 3))),
        ("1|3|1 2|3|1", 1_022, None),
        ("1|3|1 2|3|1", 1_023, Some((16, 1_026))),
        ("2|3|1 2|3|1 1|2|1", 1_023, Some((16, 1_026))),
        ("2|3|1 2|3|10000", 1_023, Some((16, 1_026))),
        ("2|3|1 1|3|10000", 1_023, Some((6, 1_026))),
        ("2|3|1 3|3|10000", 1_023, Some((5, 1_026))),
        ("2|3|1 2|4|10000", 1_023, Some((4, 1_026))),
        ("2|3|1 2|3", 1_023, Some((2, 1_026))),
        ("2|3|10000 2|3|1", 1_023, Some((7, 1_025))),
    ];
    for (end, before, refusal) in wanted {
        let rows = ["1|2|1 ".repeat(before).as_str(), end].concat();
        let what = format!("{end} behind {before} rows");
        let of_table = table::read(&text_of(&rows, "")).err();
        same(&what, of_table.map(place), refusal)?;
        // What a table is refused for comes before 8 and 9.
        let of_sheet = check::read(&text_of(&rows, "|2|0|F")).err();
        let of_sheet = of_sheet.map(place).filter(|_| refusal.is_some());
        same(&format!("sheet: {what}"), of_sheet, refusal)?;
    }
    Ok(())
}

/// Text order decides which circuit is split.
fn circuits_sent() -> Outcome {
    let routed = [
        ("D|1|2|1\nD|1|2|1\n", vec![(2, 0), (0, 2)], "FB"),
        ("D|1|2|3\nD|1|2|5\n", vec![(6, 0), (2, 8)], "FB"),
        ("D|1|2|5\nD|1|2|3\n", vec![(8, 2), (0, 6)], "FB"),
    ];
    for (rows, sent, ways) in routed {
        let table = table(&format!("R|2|4\n{rows}"))?;
        let plan = rules::plan(&table);
        same(
            rows,
            (splits(&plan.sent), letters(&plan.ways).as_str()),
            (sent, ways),
        )?;
        theorems(&table)?;
    }
    Ok(())
}

/// No table has rule B split both, so rule C is given them here.
fn circuits_untangled() -> Outcome {
    let rows = table("R|3|4\nD|1|3|3\nD|1|3|2\n")?.rows;
    let mut sent = [(2, 4), (3, 1)].map(|(front, back)| Sent { front, back });
    rules::rule_c(&rows, &mut sent);
    same(
        "rule C on two circuits",
        splits(&sent),
        vec![(1, 5), (4, 0)],
    )
}

/// A sheet of ours is accepted, says what was written, and has no parallel pair.
fn theorem_sheet(table: &Table, plan: &Plan) -> Outcome {
    let text = sheet::sheet_text(table, plan);
    let read = check::read(&text).map_err(|refusal| format!("ours: {refusal:?}"))?;
    let same_values = read.table == *table && read.plan == *plan;
    holds("a sheet read afresh", same_values)?;
    holds("no parallel pair", check::first_parallel(&read).is_none())
}

/// What an accepted sheet of any tool proves: no cut has a larger across number.
fn theorem_accepted(table: &Table, plan: &Plan) -> Outcome {
    let accepted = check::read(&sheet::sheet_text(table, plan)).is_ok();
    let largest = rules::rule_a(table).across;
    holds("the peak is best", !accepted || plan.cut.across == largest)
}

/// Rule B: s is always even, and never below 0; no link's room falls below 0.
/// Of rows with the same nodes it splits one at most.
fn theorem_b(table: &Table, sent: &[Sent], m: i64) -> Outcome {
    for (at, row) in table.rows.iter().enumerate() {
        let (rows, unsent) = (&table.rows[..at], &table.rows[at + 1..]);
        let mut room = vec![0];
        for link in 1..=table.n {
            room.push(m - rules::split_load(rows, &sent[..at], link));
        }
        let s = rules::least(row, unsent, &room);
        holds("s is even", s % 2 == 0)?;
        holds("s is at least 0", s >= 0)?;
        holds("room is at least 0", room.iter().all(|room| *room >= 0))?;
    }
    let rows = table.rows.iter().zip(sent);
    let split = rows.filter(|(_, sent)| rules::is_split(sent));
    let nodes: Vec<_> = split.map(|(row, _)| (row.first, row.second)).collect();
    let rising = nodes.windows(2).all(|two| two[0] < two[1]);
    holds("one split row of two nodes", rising)?;
    holds("loads after rule B", within(table, sent, m))
}

/// Split loads never exceed M.
fn within(table: &Table, sent: &[Sent], m: i64) -> bool {
    let mut links = 1..=table.n;
    links.all(|link| rules::split_load(&table.rows, sent, link) <= m)
}

/// No two split rows are parallel after rule C.
fn theorem_c(table: &Table, sent: &[Sent]) -> Outcome {
    let rows = table.rows.iter().zip(sent);
    let split: Vec<_> = rows.filter(|(_, sent)| rules::is_split(sent)).collect();
    for (at, (one, _)) in split.iter().enumerate() {
        for (two, _) in &split[at + 1..] {
            holds("split rows cross", rules::cross(one, two))?;
            holds("rising first node", one.first < two.first)?;
        }
    }
    Ok(())
}

/// All theorems on one table.
pub fn theorems(table: &Table) -> Outcome {
    let plan = rules::plan(table);
    let m = plan.cut.across;
    let sent = rules::rule_b(table, m);
    theorem_b(table, &sent, m)?;
    theorem_c(table, &plan.sent)?;
    for (row, sent) in table.rows.iter().zip(&plan.sent) {
        holds("front and back", sent.front >= 0 && sent.back >= 0)?;
        holds("sum is 2d", sent.front + sent.back == 2 * row.amount)?;
    }
    holds("split loads within M", within(table, &plan.sent, m))?;
    holds("split peak is M", rules::peak(&plan.split) == m)?;
    let largest = rules::largest_split(&table.rows, &plan.sent);
    holds("the bound", 2 * plan.peak <= m + 3 * largest)?;
    theorem_sheet(table, &plan)?;
    let text = sheet::table_text(table);
    let again = table::read(&text).map_err(|refusal| format!("{refusal:?}"))?;
    holds("a table read afresh", again == *table)
}

/// The theorems on random tables.
pub fn random_theorems(seed: u64) -> Outcome {
    for case in 0..600 {
        let mut rng = Rng::for_case(seed, 1_000, case);
        let n = rng.between(2, 64);
        let table = match case % 4 {
            0 => gen::shaped(&mut rng, n / 2 + 1),
            1 => gen::any(&mut rng, n / 2 + 1),
            2 => gen::circuits(&mut rng, n, 40),
            _ => gen::sparse(&mut rng, n, 30),
        };
        let plan = foreign::plan(&mut rng, &table);
        let both = theorems(&table).and_then(|()| theorem_accepted(&table, &plan));
        both.map_err(|what| {
            let text = barred(&sheet::table_text(&table));
            format!("seed {seed}, table {case}: {what}\n{text}")
        })?;
    }
    Ok(())
}
