//! The groups of cases: of tables whole lists first, then random tables and
//! texts; the groups of sheets after them, those of matrices, and those of bytes last.

use crate::bars::tabbed;
use crate::byte_groups;
use crate::compare::{Case, Lend};
use crate::family::FAMILIES;
use crate::gen::{self, Amounts};
use crate::limits::ROWS;
use crate::matrices;
use crate::part::{group, Group};
use crate::rng::Rng;
use crate::sheet::table_text;
use crate::sheets;
use crate::table::{Row, Table};
use crate::twin::Call;

/// The case with a number; None where the list has ended.
pub type Make = fn(&mut Rng, u64) -> Option<Case>;

pub const GROUPS: [Group<Make>; 77] = [
    group("stated tables", 0, stated),
    group("all small tables", 0, all_small),
    group("about as many rows as there may be", 0, about_most),
    group("every byte of the square", 0, every_byte),
    group("boundary numbers in two fields", 0, two_fields),
    group("every buffer length", 0, every_length),
    group("random tables, 2 to 15 offices", 430, small),
    group("random tables, 16 to 32 offices", 136, large),
    group("thin tables, 16 to 64 offices", 700, thin),
    group("tables of near offices, 33 to 64", 40, near),
    group("shaped tables", 500, shaped),
    group("circuits, 2 to 15 offices", 200, circuits_small),
    group("circuits, 16 to 64 offices", 160, circuits_large),
    group("full tables with more circuits", 12, full_circuits),
    group("tables of 1,024 rows", 14, most_rows),
    group("tables of 1,025 rows and more", 108, too_many_rows),
    group("full tables, 20 offices", 96, full_20),
    group("full tables, 32 offices", 24, full_32),
    group("full tables, 40, 48, 56 and 64 offices", 0, full_larger),
    group("full tables of 0, 1, 9999", 24, full_ends),
    group("damaged bytes", 360, damaged_bytes),
    group("damaged lines", 360, damaged_lines),
    group("damaged fields", 350, damaged_fields),
    group("damaged rows", 120, damaged_rows),
    group("damaged several times", 240, damaged_often),
    group("padded texts", 104, padded),
    group("noise", 56, noise),
    group("sheets: the stated ones", 0, sheets::stated),
    group("sheets: all small ones", 0, sheets::all_small),
    group("sheets: every byte of the square's", 0, sheets::every_byte),
    group(
        "sheets: every field of the ring of five's",
        0,
        sheets::every_field,
    ),
    group(
        "sheets: about as many rows as there may be",
        0,
        sheets::about_most,
    ),
    group("sheets: every buffer length", 0, sheets::every_length),
    group("sheets of ours", 700, sheets::ours),
    group("sheets of ours, full rings", 100, sheets::ours_full),
    group(
        "foreign sheets, 2 to 15 offices",
        400,
        sheets::foreign_small,
    ),
    group(
        "foreign sheets, 16 to 64 offices",
        1000,
        sheets::foreign_large,
    ),
    group("foreign sheets, full rings", 100, sheets::foreign_full),
    group("sheets of 40 to 64 offices, full", 0, sheets::full_larger),
    group("foreign sheets, rows that cross", 500, sheets::crossing),
    group(
        "foreign sheets, rows across one cut",
        400,
        sheets::all_across,
    ),
    group("sheets of 1,024 rows", 40, sheets::most_rows),
    group("sheets of 1,025 rows and more", 140, sheets::too_many_rows),
    group("sheets with a figure off by one", 700, sheets::off_by_one),
    group("sheets with two figures off", 250, sheets::two_off),
    group("damaged sheets: bytes", 400, sheets::damaged_bytes),
    group("damaged sheets: lines", 400, sheets::damaged_lines),
    group("damaged sheets: fields", 450, sheets::damaged_fields),
    group("damaged sheets: rows", 150, sheets::damaged_rows),
    group("damaged sheets: several times", 150, sheets::damaged_often),
    group("padded sheets", 50, sheets::padded),
    group("tables and noise for sheets", 50, sheets::no_sheets),
    group("matrices: by hand", 0, matrices::by_hand),
    group("matrices: all small ones", 0, matrices::all_small),
    group("matrices: every byte", 0, matrices::every_byte),
    group("matrices: every buffer length", 0, matrices::every_length),
    group("matrices: all small sums", 0, matrices::small_sums),
    group("matrices", 250, matrices::any),
    group("matrices, full rings", 150, matrices::full),
    group("matrices of about 1,024 rows", 60, matrices::about_most),
    group("matrices with faulty entries", 400, matrices::spoiled),
    group("matrices turned about", 100, matrices::turned),
    group("damaged matrices: bytes", 300, matrices::damaged_bytes),
    group("damaged matrices: lines", 250, matrices::damaged_lines),
    group("damaged matrices: fields", 250, matrices::damaged_fields),
    group("damaged matrices: long lines", 60, matrices::long_lines),
    group(
        "damaged matrices: several times",
        200,
        matrices::damaged_often,
    ),
    group("padded matrices", 60, matrices::padded),
    group("matrices of tables", 200, matrices::written),
    group(
        "matrices of tables, sums about 9999",
        400,
        matrices::about_the_limit,
    ),
    group("matrices of damaged tables", 200, matrices::damaged_tables),
    group("matrices of tables too long", 80, matrices::long_tables),
    group(
        "bytes: every field of large texts",
        0,
        byte_groups::every_field,
    ),
    group(
        "bytes: lines missing and left over",
        0,
        byte_groups::lines_about,
    ),
    group("bytes: long lines", 0, byte_groups::long_lines),
    group(
        "bytes: nodes, amounts and entries",
        100,
        byte_groups::values,
    ),
    group("bytes: large texts damaged", 200, byte_groups::damaged),
];

pub const LENDS: [Lend; 6] = [
    Lend::Exactly(0),
    Lend::Need(-1),
    Lend::Need(0),
    Lend::Need(1),
    Lend::Need(17),
    Lend::Need(5_000),
];

pub const ENOUGH: [Lend; 4] = [
    Lend::Need(0),
    Lend::Need(1),
    Lend::Need(17),
    Lend::Need(5_000),
];

pub const SHORT: [Lend; 4] = [
    Lend::Exactly(0),
    Lend::Exactly(1),
    Lend::Need(-1),
    Lend::Need(-17),
];

/// Both calls, every length around the need.
fn all_trials() -> Vec<(Call, Lend)> {
    let route = LENDS.map(|lend| (Call::Route, lend));
    let rewrite = LENDS.map(|lend| (Call::Rewrite, lend));
    [route, rewrite].concat()
}

/// One route with room enough and, one time out of two, one without; a rewrite
/// of either kind.
fn some_trials(rng: &mut Rng) -> Vec<(Call, Lend)> {
    let mut trials = vec![(Call::Route, rng.pick(&ENOUGH))];
    if rng.chance(1, 2) {
        trials.push((Call::Route, rng.pick(&SHORT)));
    }
    trials.push((Call::Rewrite, rng.pick(&ENOUGH)));
    trials.push((Call::Rewrite, rng.pick(&SHORT)));
    trials
}

/// One route and one rewrite, mostly with room enough.
fn two_trials(rng: &mut Rng) -> Vec<(Call, Lend)> {
    let calls = [Call::Route, Call::Rewrite];
    let lends = calls.map(|call| {
        let short = rng.chance(1, 6);
        let lends = if short { &SHORT } else { &ENOUGH };
        (call, rng.pick(lends))
    });
    lends.to_vec()
}

pub fn of_table(table: &Table, trials: Vec<(Call, Lend)>) -> Option<Case> {
    Some(Case {
        offices: table.n,
        text: table_text(table),
        trials,
    })
}

pub fn of_text(text: &str, trials: Vec<(Call, Lend)>) -> Option<Case> {
    Some(Case {
        offices: 4,
        text: tabbed(text),
        trials,
    })
}

/// Tables of the stated cases (Rules, stated cases), more of circuits and of
/// fibres, tabs shown as |.
pub const NUMBERS: [&str; 62] = [
    "R|4|4\nD|1|3|1\nD|2|4|1\n",
    "R|2|4\n",
    "R|2|4\nD|1|2|5\n",
    "R|4|4\nD|1|2|1\n",
    "R|5|4\nD|1|2|2\nD|1|4|5\nD|2|3|9\nD|2|4|11\nD|3|4|4\nD|3|5|3\n",
    "R|8|4\nD|1|4|1\nD|2|3|1\nD|5|8|2\nD|6|7|2\n",
    "R|2|4\nD|1|2|768\n",
    "R|2|4\nD|1|2|769\n",
    "R|8|4\nD|1|5|1\nD|2|6|1\nD|3|7|1\nD|4|8|1\n",
    "R|4|4\nD|1|2|0\n",
    "R|1|4\n",
    "R|65|4\n",
    "R|64|4\n",
    "R|2|4\nD|1|2|9999\n",
    "R|2|4\nD|1|2|10000\n",
    "R|4|4\nD|5|2|10000\n",
    "",
    "\n",
    "R|4|4",
    "R|4|4\n\n",
    "R|4|4\nD|1|2|1",
    "R|4|4\r\n",
    "R|0|4\n",
    "R|04|4\n",
    "R|4|\n",
    "R|4|4\nR|4\n",
    "D|1|2|1\n",
    "R|4|4\nD|1|2|1\nD|1|2|1\n",
    "R|4|4\nD|2|2|1\n",
    "R|4|4\nD|1|3|1\nD|1|2|10000\n",
    "R|2|4\nD|1|2|1\nD|1|2|1\nD|1|2|1\n",
    "R|2|4\nD|1|2|3\nD|1|2|5\n",
    "R|2|4\nD|1|2|5\nD|1|2|3\n",
    "R|2|4\nD|1|2|0\nD|1|2|9999\nD|1|2|0\n",
    "R|4|4\nD|1|3|1\nD|1|3|2\nD|1|2|1\n",
    "R|4|4\nD|2|3|1\nD|2|3|1\nD|1|4|1\n",
    "R|4|2\nD|1|3|1\nD|2|4|1\n",
    "R|2|2\nD|1|2|385\n",
    "R|4\nD|1|3|1\n",
    "R|4|3\nD|1|3|1\n",
    "R|65|3\n",
    "R|4|3\nx\n",
    "R|4|4|M\nD|1|3|1\nD|2|4|1\n",
    "R|2|4|M\n",
    "R|2|4|M\nD|1|2|256\n",
    "R|2|4|M\nD|1|2|257\n",
    "R|2|2|M\nD|1|2|128\n",
    "R|2|2|M\nD|1|2|129\n",
    "R|64|4|M\nD|1|64|9999\n",
    "R|4|4|M",
    "R|4|4|\n",
    "R|4|4||M\n",
    "R|4|4|m\n",
    "R|4|4|MM\n",
    "R|4|4|M|\n",
    "R|4|4|M|M\n",
    "R|4|M|4\n",
    "R|4|M\n",
    "R|4|4 M\n",
    "R|4|3|M\n",
    "R|65|4|M\n",
    "R|4|3|m\n",
];

pub fn stated(_: &mut Rng, case: u64) -> Option<Case> {
    let text = NUMBERS.get(case as usize)?;
    of_text(text, all_trials())
}

/// All tables of 2 to 5 offices, each pair of which has one of some lists of
/// circuits, given by their amounts.
const SMALL: [(i64, &[&[i64]]); 7] = [
    (2, &[&[], &[0], &[1], &[2]]),
    (3, &[&[], &[0], &[1], &[2]]),
    (4, &[&[], &[0], &[1], &[2]]),
    (5, &[&[], &[1]]),
    (
        2,
        &[
            &[1, 2],
            &[2, 1],
            &[0, 3, 0],
            &[4, 1, 2],
            &[1, 1, 1, 1],
            &[2, 3, 1, 3, 2],
        ],
    ),
    (
        3,
        &[
            &[],
            &[1],
            &[1, 1],
            &[0, 1],
            &[1, 2],
            &[2, 1],
            &[1, 1, 1],
            &[3, 0, 2],
            &[1, 2, 3],
        ],
    ),
    (4, &[&[], &[1], &[1, 1], &[2, 1]]),
];

pub fn all_small(_: &mut Rng, case: u64) -> Option<Case> {
    let mut code = case;
    for (n, lists) in SMALL {
        let pairs = gen::pairs(n);
        let choices = lists.len() as u64;
        let tables = choices.pow(pairs.len() as u32);
        if code >= tables {
            code -= tables;
            continue;
        }
        let mut rows = Vec::new();
        for (i, j) in pairs {
            let list = lists[(code % choices) as usize];
            code /= choices;
            rows.extend(list.iter().map(|d| Row::of(i, j, *d)));
        }
        let mut trials = vec![(Call::Route, Lend::Need(0))];
        if case % 8 == 0 {
            trials.push((Call::Rewrite, Lend::Need(0)));
        }
        let table = Table {
            n,
            fibres: if case % 3 == 0 { 2 } else { 4 },
            family: FAMILIES[usize::from(case % 5 < 2)],
            rows,
        };
        return of_table(&table, trials);
    }
    None
}

/// Tables of 3 offices that end with one, two or three rows of every kind, the
/// first of which is the last row that there may be.
pub fn about_most(_: &mut Rng, case: u64) -> Option<Case> {
    let ends = [
        "D|2|3|1\n",
        "D|2|3|10000\n",
        "D|1|3|1\n",
        "D|1|3|10000\n",
        "D|3|3|1\n",
        "D|2|4|1\n",
        "D|2|3\n",
    ];
    let end = gen::sequence(&ends, 3, case)?.concat();
    let rows = ["D|1|2|1\n".repeat(200), "D|2|3|1\n".repeat(ROWS - 201)].concat();
    let trials = vec![(one_call(case), Lend::Need(1))];
    of_text(&format!("R|3|4\n{rows}{end}"), trials)
}

/// The square of either family with each byte given each value, then with bytes put in before
/// it, then with it dropped or the text cut short there.
pub fn every_byte(_: &mut Rng, case: u64) -> Option<Case> {
    let of_sonet = gen::byte_changed(tabbed(NUMBERS[0]), case / 2);
    let of_sdh = || gen::byte_changed(tabbed("R|4|4|M\nD|1|3|1\nD|2|4|1\n"), case / 2);
    Some(Case {
        offices: 4,
        text: if case % 2 == 0 {
            of_sonet.or_else(of_sdh)
        } else {
            of_sdh()
        }?,
        trials: vec![(one_call(case), Lend::Need(3))],
    })
}

/// A rewrite one time out of eight, else a route.
fn one_call(case: u64) -> Call {
    if case % 8 == 7 {
        return Call::Rewrite;
    }
    Call::Route
}

/// Each two of the square's seven numbers replaced by boundary numbers.
fn two_fields(_: &mut Rng, case: u64) -> Option<Case> {
    let places = gen::pairs(8);
    let numbers = gen::BOUNDARY.len();
    let (place, choice) = (
        case as usize / numbers.pow(2),
        case as usize % numbers.pow(2),
    );
    let (one, two) = *places.get(place)?;
    let mut fields = ["4", "4", "1", "3", "1", "2", "4", "1"];
    fields[one as usize - 1] = gen::BOUNDARY[choice / numbers];
    fields[two as usize - 1] = gen::BOUNDARY[choice % numbers];
    let [n, fibres, a, b, c, d, e, f] = fields;
    let text = format!("R|{n}|{fibres}\nD|{a}|{b}|{c}\nD|{d}|{e}|{f}\n");
    of_text(&text, vec![(one_call(case), Lend::Need(1))])
}

/// Every length from 0 to the need and 17 more, both calls.
fn every_length(rng: &mut Rng, case: u64) -> Option<Case> {
    let mut trials = Vec::new();
    for call in [Call::Route, Call::Rewrite] {
        for length in 0..=160 {
            trials.push((call, Lend::Exactly(length)));
        }
        for more in -20..=17 {
            trials.push((call, Lend::Need(more)));
        }
    }
    match case {
        0..=5 => of_text(NUMBERS[case as usize], trials),
        6 => of_text("R|4|4\nD|1|3|1\nD|2|2|1\n", trials),
        7 => of_table(&gen::sparse(rng, 16, 9), trials),
        8 => of_table(&gen::sparse(rng, 64, 20), trials),
        9 => of_table(&gen::full(rng, 9, Amounts::Mixed), trials),
        _ => None,
    }
}

pub fn small(rng: &mut Rng, _: u64) -> Option<Case> {
    let n = rng.between(2, 15);
    of_table(&gen::any(rng, n), all_trials())
}

fn large(rng: &mut Rng, _: u64) -> Option<Case> {
    let n = rng.between(16, 32);
    let trials = some_trials(rng);
    of_table(&gen::any(rng, n), trials)
}

fn thin(rng: &mut Rng, _: u64) -> Option<Case> {
    let n = rng.between(16, 64);
    let count = rng.between(0, 40) as usize;
    let trials = some_trials(rng);
    of_table(&gen::sparse(rng, n, count), trials)
}

fn shaped(rng: &mut Rng, _: u64) -> Option<Case> {
    let n = if rng.chance(1, 3) {
        rng.between(2, 15)
    } else {
        rng.between(16, 32)
    };
    let mut table = gen::shaped(rng, n);
    if rng.chance(1, 2) {
        table.rows.retain(|_| rng.chance(1, 2));
    }
    let trials = some_trials(rng);
    of_table(&table, trials)
}

pub fn circuits_small(rng: &mut Rng, _: u64) -> Option<Case> {
    let (n, count) = (rng.between(2, 15), rng.between(2, 40));
    of_table(&gen::circuits(rng, n, count as usize), all_trials())
}

fn circuits_large(rng: &mut Rng, _: u64) -> Option<Case> {
    let (n, count) = (rng.between(16, 64), rng.between(2, 60));
    let trials = some_trials(rng);
    of_table(&gen::circuits(rng, n, count as usize), trials)
}

/// Many rows whose fronts are short.
fn near(rng: &mut Rng, _: u64) -> Option<Case> {
    let (n, amounts) = (rng.between(33, 64), gen::any_amounts(rng));
    let mut table = gen::near(rng, n, amounts);
    let part = rng.pick(&[10, 30, 60]);
    table.rows.retain(|_| rng.chance(part, 100));
    let trials = some_trials(rng);
    of_table(&table, trials)
}

fn full_circuits(rng: &mut Rng, _: u64) -> Option<Case> {
    let trials = some_trials(rng);
    of_table(&gen::full_with_circuits(rng), trials)
}

fn most_rows(rng: &mut Rng, _: u64) -> Option<Case> {
    let n = rng.pick(&[2, 3, 4, 7, 12, 16, 20, 64]);
    let trials = some_trials(rng);
    of_table(&gen::circuits(rng, n, ROWS), trials)
}

/// 1,025 rows and more; two times out of three a row has another reason, or
/// several.
pub fn too_many_rows(rng: &mut Rng, case: u64) -> Option<Case> {
    let n = rng.between(2, 64);
    let more = rng.pick(&[1, 1, 2, 4, 200, 1_000]);
    let mut table = gen::circuits(rng, n, ROWS + more);
    if case % 3 == 0 {
        gen::spoil_row(rng, &mut table.rows[ROWS]);
    }
    let mut made = of_table(&table, two_trials(rng))?;
    if case % 3 == 1 {
        gen::damage_any(rng, &mut made.text, gen::damage_row);
    }
    Some(made)
}

fn full_20(rng: &mut Rng, _: u64) -> Option<Case> {
    let amounts = gen::any_amounts(rng);
    let trials = some_trials(rng);
    of_table(&gen::full(rng, 20, amounts), trials)
}

/// As many pairs as there may be rows, of rings as large as there may be. The twin
/// routes them slowly.
fn full_larger(rng: &mut Rng, case: u64) -> Option<Case> {
    let n = *[40, 48, 56, 64].get(case as usize)?;
    let amounts = rng.pick(&[Amounts::UpTo(9_999), Amounts::Mixed]);
    let trials = vec![(Call::Route, Lend::Need(1)), (Call::Rewrite, Lend::Need(0))];
    of_table(&gen::full(rng, n, amounts), trials)
}

fn full_32(rng: &mut Rng, _: u64) -> Option<Case> {
    let amounts = gen::any_amounts(rng);
    let trials = some_trials(rng);
    of_table(&gen::full(rng, 32, amounts), trials)
}

fn full_ends(rng: &mut Rng, _: u64) -> Option<Case> {
    let n = rng.pick(&[20, 32]);
    let trials = some_trials(rng);
    of_table(&gen::full(rng, n, Amounts::Ends), trials)
}

/// A table to be damaged, five times out of six of 16 offices and more.
fn whole(rng: &mut Rng) -> Table {
    let n = if rng.chance(1, 6) {
        rng.between(2, 15)
    } else {
        let most = rng.pick(&[32, 64]);
        rng.between(16, most)
    };
    let count = rng.between(0, 30) as usize;
    match rng.below(40) {
        0 => gen::full(rng, n.min(32), Amounts::UpTo(9_999)),
        1 => gen::any(rng, n.min(32)),
        2 => gen::circuits(rng, n, ROWS),
        3..=12 => gen::circuits(rng, n, count),
        _ => gen::sparse(rng, n, count),
    }
}

/// A damaged text: the damage is done `times` times.
fn damaged(rng: &mut Rng, times: u64, damage: fn(&mut Rng, &mut Vec<u8>)) -> Option<Case> {
    let table = whole(rng);
    let mut text = table_text(&table);
    for _ in 0..times {
        damage(rng, &mut text);
    }
    Some(Case {
        offices: table.n,
        text,
        trials: two_trials(rng),
    })
}

fn damaged_bytes(rng: &mut Rng, _: u64) -> Option<Case> {
    damaged(rng, 1, gen::damage_bytes)
}

fn damaged_lines(rng: &mut Rng, _: u64) -> Option<Case> {
    damaged(rng, 1, gen::damage_lines)
}

fn damaged_fields(rng: &mut Rng, _: u64) -> Option<Case> {
    damaged(rng, 1, gen::damage_fields)
}

fn damaged_rows(rng: &mut Rng, _: u64) -> Option<Case> {
    damaged(rng, 1, gen::damage_row)
}

fn damaged_often(rng: &mut Rng, _: u64) -> Option<Case> {
    let times = rng.between(2, 4) as u64;
    damaged(rng, times, |rng, text| {
        gen::damage_any(rng, text, gen::damage_row)
    })
}

/// Texts of 32,768 bytes, one more, and lengths about as large.
pub fn padded(rng: &mut Rng, _: u64) -> Option<Case> {
    let mut case = damaged(rng, 0, gen::damage_bytes)?;
    if rng.chance(1, 2) {
        gen::damage_fields(rng, &mut case.text);
    }
    padded_length(rng, &mut case.text);
    Some(case)
}

pub fn padded_length(rng: &mut Rng, text: &mut Vec<u8>) {
    let lengths = [
        32_767, 32_768, 32_768, 32_768, 32_769, 32_769, 32_770, 65_536, 65_600, 98_304,
    ];
    let length = rng.pick(&lengths);
    gen::pad(rng, text, length);
}

pub fn noise(rng: &mut Rng, _: u64) -> Option<Case> {
    Some(Case {
        offices: 2,
        text: gen::noise(rng),
        trials: two_trials(rng),
    })
}
