//! The groups of matrices to be read and of tables to be written as matrices:
//! whole lists first, then random ones and damaged texts.

use crate::bars::tabbed;
use crate::compare::{Case, Lend, NONE};
use crate::gen::{self, Amounts};
use crate::groups::{of_table, of_text, padded_length, ENOUGH, LENDS, SHORT};
use crate::limits::ROWS;
use crate::matrix::{self, matrix_text, Matrix};
use crate::rng::Rng;
use crate::table::{Row, Table};
use crate::twin::Call;
use crate::working_groups::family as any_family;

fn of_matrix(matrix: &Matrix, trials: Vec<(Call, Lend)>) -> Option<Case> {
    Some(Case {
        offices: matrix.lines.len() as i64,
        text: matrix_text(matrix),
        trials,
    })
}

/// One call with room enough and, one time out of three, with too little; one
/// time out of twelve a call that wants another kind of text as well.
fn some_trials(rng: &mut Rng, call: Call) -> Vec<(Call, Lend)> {
    let mut trials = vec![(call, rng.pick(&ENOUGH))];
    if rng.chance(1, 3) {
        trials.push((call, rng.pick(&SHORT)));
    }
    if rng.chance(1, 12) {
        let others = [Call::ReadMatrix(4, 0), Call::WriteMatrix, Call::Rewrite];
        trials.push((rng.pick(&others), rng.pick(&LENDS)));
        trials.push((Call::Check, NONE));
    }
    trials
}

/// A matrix read with two or four fibres, or one time out of twelve with another
/// number, and for either family.
fn read_trials(rng: &mut Rng) -> Vec<(Call, Lend)> {
    let wrong = rng.chance(1, 12);
    let fibres = rng.pick(if wrong {
        &[0, 1, 3, 5, 6, 258, u32::MAX]
    } else {
        &[2, 4, 2, 4, 2, 4, 4]
    });
    let family = any_family(rng);
    some_trials(rng, Call::ReadMatrix(fibres, family))
}

/// The ring of five, zeros, the limits of n and of an entry, each reason, and
/// two at once, tabs shown as |.
pub const MATRICES: [&str; 36] = [
    "0|2|0|5|0\n2|0|9|11|0\n0|9|0|4|3\n5|11|4|0|0\n0|0|3|0|0\n",
    "0|0\n0|0\n",
    "0|1\n1|0\n",
    "0|9999\n9999|0\n",
    "0|0|7\n0|0|0\n7|0|0\n",
    "",
    "\n",
    "0\n",
    "1\n",
    "10000\n",
    "x\n",
    "0|0\n",
    "0|0\n0\n",
    "0|0\n0|0|0\n",
    "0|0\n0|0\n0|0\n",
    "0|0\n0|0\n\n",
    "0|0\n0|0",
    "0|0\r\n0|0\r\n",
    "0|0|\n0|0\n",
    "0|00\n0|0\n",
    "0|10000\n10000|0\n",
    "0|9999\n10000|0\n",
    "0|100000000\n0|0\n",
    "1|0\n0|0\n",
    "0|0\n0|1\n",
    "0|1\n0|0\n",
    "0|0\n1|0\n",
    "1|0\n0|10000\n",
    "1|2\n3|4\n",
    "0|1|2\n1|0|3\n2|4|0\n",
    "0|1|2\n1|5|3\n2|4|0\n",
    "0|1|2\n9|5|3\n2|3|0\n",
    "0|1|2\n1|0|3\n9|3|7\n",
    "0|10000|x\n0|0|0\n0|0|0\n",
    "0|1|2\n1|0\n10000|0|0\n",
    "R|2|4\nD|1|2|1\n",
];

pub fn by_hand(_: &mut Rng, case: u64) -> Option<Case> {
    let text = MATRICES.get(case as usize)?;
    let read = LENDS.map(|lend| (Call::ReadMatrix(4, 0), lend));
    let write = [
        (Call::ReadMatrix(2, 0), Lend::Need(0)),
        (Call::ReadMatrix(4, 1), Lend::Need(0)),
        (Call::ReadMatrix(4, 1), Lend::Need(-1)),
        (Call::ReadMatrix(2, 2), Lend::Need(1)),
        (Call::ReadMatrix(3, 1), Lend::Need(0)),
        (Call::ReadMatrix(3, 0), Lend::Need(0)),
        (Call::ReadMatrix(0, 0), Lend::Exactly(0)),
        (Call::WriteMatrix, Lend::Need(1)),
        (Call::Check, NONE),
    ];
    of_text(text, [read.as_slice(), &write].concat())
}

/// All squares of two offices whose fields are some numbers and spellings, then
/// all of three whose entries are 0 and 1.
pub fn all_small(_: &mut Rng, case: u64) -> Option<Case> {
    let of_2 = ["0", "1", "9999", "10000", "01"];
    let of_3 = ["0", "1"];
    let (n, fields, mut code) = match case.checked_sub(5_u64.pow(4)) {
        None => (2, of_2.as_slice(), case as usize),
        Some(code) => (3, of_3.as_slice(), code as usize),
    };
    let mut text = String::new();
    for _ in 0..n {
        let mut line = Vec::new();
        for _ in 0..n {
            line.push(fields[code % fields.len()]);
            code /= fields.len();
        }
        text.push_str(&format!("{}\n", line.join("|")));
    }
    if code > 0 {
        return None;
    }
    of_text(&text, vec![(Call::ReadMatrix(4, 0), Lend::Need(0))])
}

/// A matrix of three offices with each byte given each value, then with bytes
/// put in before it, then with it dropped or the text cut short there.
pub fn every_byte(_: &mut Rng, case: u64) -> Option<Case> {
    let text = "0|1|20\n1|0|9999\n20|9999|0\n";
    let text = gen::byte_changed(tabbed(text), case)?;
    Some(Case {
        offices: 3,
        text,
        trials: vec![(Call::ReadMatrix(4, 0), Lend::Need(3))],
    })
}

/// Tables of three offices whose rows are up to five of some kinds: sums on both
/// sides of 9,999, rows of 0, and rows that are refused.
pub fn small_sums(_: &mut Rng, case: u64) -> Option<Case> {
    let rows = [
        "D|1|2|0\n",
        "D|1|2|1\n",
        "D|1|2|9998\n",
        "D|1|3|5000\n",
        "D|2|3|9999\n",
        "D|2|3|10000\n",
    ];
    let rows = gen::sequence(&rows, 5, case)?.concat();
    let trials = vec![(Call::WriteMatrix, Lend::Need(1))];
    of_text(&format!("R|3|4\n{rows}"), trials)
}

/// Every length from 0 to 160, and around the need, of both calls.
pub fn every_length(rng: &mut Rng, case: u64) -> Option<Case> {
    let call = [Call::ReadMatrix(4, 0), Call::WriteMatrix][case as usize % 2];
    let lengths = (0..=160).map(|length| (call, Lend::Exactly(length)));
    let around = (-40..=17).map(|more| (call, Lend::Need(more)));
    let trials = lengths.chain(around).collect();
    let table = match case / 2 {
        0 => gen::sparse(rng, 2, 1),
        1 => gen::sparse(rng, 5, 0),
        2 => gen::full(rng, 6, Amounts::Mixed),
        3 => gen::full(rng, 20, Amounts::Always(9_999)),
        4 => gen::full(rng, 64, Amounts::UpTo(9_999)),
        _ => return None,
    };
    if call == Call::WriteMatrix {
        return of_table(&table, trials);
    }
    of_matrix(&square(&table), trials)
}

/// The square of a table with one row a pair at most.
pub fn square(table: &Table) -> Matrix {
    let mut matrix = matrix::zeros(table.n);
    for row in &table.rows {
        matrix::set(&mut matrix, row.first, row.second, row.amount);
    }
    matrix
}

/// A ring of 16 offices and more, but one time out of four.
fn offices(rng: &mut Rng) -> i64 {
    if rng.chance(1, 4) {
        return rng.between(2, 15);
    }
    let most = rng.pick(&[32, 32, 64]);
    rng.between(16, most)
}

fn any_matrix(rng: &mut Rng) -> Matrix {
    let n = offices(rng);
    square(&gen::any(rng, n))
}

pub fn any(rng: &mut Rng, _: u64) -> Option<Case> {
    let matrix = any_matrix(rng);
    of_matrix(&matrix, read_trials(rng))
}

/// Every pair of 20 offices, or of 32, or as many of 64 as there may be, and of these
/// some with the largest amounts only.
pub fn full(rng: &mut Rng, case: u64) -> Option<Case> {
    let n = [20, 32, 20, 32, 64][case as usize % 5];
    let amounts = rng.pick(&[
        Amounts::Always(1),
        Amounts::Always(9_999),
        Amounts::UpTo(9_999),
    ]);
    let matrix = square(&gen::full(rng, n, amounts));
    of_matrix(&matrix, read_trials(rng))
}

/// Of 46 to 64 offices, about as many entries above 0 as there may be rows, or all of
/// them; and then one entry made another two times out of three.
pub fn about_most(rng: &mut Rng, case: u64) -> Option<Case> {
    let n = rng.between(46, 64);
    let amounts = rng.pick(&[Amounts::Always(1), Amounts::Always(9_999)]);
    let mut matrix = square(&gen::full(rng, n, amounts));
    let mut more = match rng.below(5) {
        0 => usize::MAX,
        more => more - 1,
    };
    for (i, j) in gen::pairs(n) {
        let free = matrix.lines[i as usize - 1][j as usize - 1] == 0;
        if free && more > 0 {
            matrix::set(&mut matrix, i, j, 7);
            more -= 1;
        }
    }
    if case % 3 > 0 {
        spoil(rng, &mut matrix);
    }
    of_matrix(&matrix, read_trials(rng))
}

/// One entry made another: on the diagonal, in one half alone, in both halves
/// with the limit passed in one of them, or in both alike.
fn spoil(rng: &mut Rng, matrix: &mut Matrix) {
    let n = matrix.lines.len();
    let (i, j) = (rng.below(n), rng.below(n));
    let other = rng.pick(&[0, 1, 256, 8_192, 9_999, 10_000, 65_536, 99_999_999]);
    let entry = matrix.lines[i][j];
    let near = if rng.chance(1, 2) {
        entry + 1
    } else {
        (entry - 1).max(0)
    };
    let new = if rng.chance(1, 3) { other } else { near };
    match rng.below(6) {
        0 => matrix.lines[i][i] = new,
        1 => (matrix.lines[i][j], matrix.lines[j][i]) = (new, other),
        2 => (matrix.lines[i][j], matrix.lines[j][i]) = (new, new),
        _ => matrix.lines[i][j] = new,
    }
}

pub fn spoiled(rng: &mut Rng, _: u64) -> Option<Case> {
    let mut matrix = any_matrix(rng);
    for _ in 0..rng.pick(&[1, 1, 1, 2, 2, 3, 6]) {
        spoil(rng, &mut matrix);
    }
    of_matrix(&matrix, read_trials(rng))
}

/// Two lines or two columns changed over, a line turned round, or the whole
/// square: most are then neither symmetric nor 0 on the diagonal.
pub fn turned(rng: &mut Rng, _: u64) -> Option<Case> {
    let mut matrix = any_matrix(rng);
    let n = matrix.lines.len();
    let (one, two) = (rng.below(n), rng.below(n));
    let columns = |line: &mut Vec<i64>| line.swap(one, two);
    match rng.below(4) {
        0 => matrix.lines.swap(one, two),
        1 => matrix.lines.iter_mut().for_each(columns),
        2 => matrix.lines[one].reverse(),
        _ => {
            matrix.lines.swap(one, two);
            matrix.lines.iter_mut().for_each(columns);
        }
    }
    of_matrix(&matrix, read_trials(rng))
}

/// A field put in, taken away, made empty or given another spelling, half of the
/// time in the first line, which says how many fields are due.
fn damage_fields(rng: &mut Rng, text: &mut Vec<u8>) {
    let mut lines = gen::lines_of(text);
    if lines.is_empty() {
        return;
    }
    let first = rng.chance(1, 2);
    let at = if first { 0 } else { rng.below(lines.len()) };
    gen::change_fields(&mut lines[at], |fields| {
        let spellings = [gen::BOUNDARY.as_slice(), &gen::ODD].concat();
        let new = rng.pick(&spellings).as_bytes().to_vec();
        let field = rng.below(fields.len());
        match rng.below(8) {
            0 => fields.insert(field, new),
            1 => {
                fields.remove(field);
            }
            2 => fields.push(Vec::new()),
            3 => fields.truncate(field),
            _ => fields[field] = new,
        }
    });
    *text = lines.concat();
}

/// So many zeros on the first line, with something else at one place.
fn long_line(rng: &mut Rng, text: &mut Vec<u8>) {
    let count = rng.pick(&[1, 2, 63, 65, 66, 300, 4_000, 16_384, 16_385]);
    let mut fields = vec!["0"; count];
    let place = rng.pick(&[0, count / 2, count - 1]);
    fields[place] = rng.pick(&["0", "0", "1", "10000", "x"]);
    let line = fields.join("\t") + if rng.chance(1, 8) { "" } else { "\n" };
    let rest = gen::lines_of(text).into_iter().skip(1).collect::<Vec<_>>();
    *text = [line.into_bytes(), rest.concat()].concat();
    if rng.chance(1, 2) {
        text.truncate(32_769);
    }
}

type Damage = fn(&mut Rng, &mut Vec<u8>);

/// A damaged matrix: the damages are done one after the other, to a matrix with
/// a faulty entry one time out of three.
fn damaged(rng: &mut Rng, times: u64, damages: &[Damage]) -> Option<Case> {
    let mut matrix = any_matrix(rng);
    if rng.chance(1, 3) {
        spoil(rng, &mut matrix);
    }
    let mut case = of_matrix(&matrix, read_trials(rng))?;
    for _ in 0..times {
        rng.pick(damages)(rng, &mut case.text);
    }
    Some(case)
}

pub fn damaged_bytes(rng: &mut Rng, _: u64) -> Option<Case> {
    damaged(rng, 1, &[gen::damage_bytes])
}

pub fn damaged_lines(rng: &mut Rng, _: u64) -> Option<Case> {
    damaged(rng, 1, &[gen::damage_lines])
}

pub fn damaged_fields(rng: &mut Rng, _: u64) -> Option<Case> {
    damaged(rng, 1, &[damage_fields])
}

pub fn long_lines(rng: &mut Rng, _: u64) -> Option<Case> {
    damaged(rng, 1, &[long_line])
}

pub fn damaged_often(rng: &mut Rng, _: u64) -> Option<Case> {
    let times = rng.between(2, 4) as u64;
    let all = [gen::damage_bytes, gen::damage_lines, damage_fields];
    damaged(rng, times, &all)
}

/// Texts of 32,768 bytes, one more, and lengths about as large.
pub fn padded(rng: &mut Rng, _: u64) -> Option<Case> {
    let mut case = damaged(rng, 0, &[])?;
    padded_length(rng, &mut case.text);
    Some(case)
}

/// Circuits whose sums are small, or now and then pass.
fn circuits(rng: &mut Rng) -> Table {
    let n = offices(rng);
    let count = rng.pick(&[0, 3, 20, 60, 200, ROWS]);
    let mut table = gen::circuits(rng, n, count);
    let top = rng.pick(&[0, 3, 20, 20, 400, 4_999]);
    for row in &mut table.rows {
        row.amount = row.amount.min(top);
    }
    table
}

pub fn written(rng: &mut Rng, case: u64) -> Option<Case> {
    let n = offices(rng);
    let table = match case % 4 {
        0 => gen::any(rng, n),
        1 => gen::full_with_circuits(rng),
        _ => circuits(rng),
    };
    of_table(&table, some_trials(rng, Call::WriteMatrix))
}

/// The circuits of some pairs made to add up to 9,999 or to one more; rows of 0
/// may stand behind the row that does it.
pub fn about_the_limit(rng: &mut Rng, _: u64) -> Option<Case> {
    let mut table = circuits(rng);
    for _ in 0..rng.between(1, 3) {
        let Some(at) = table
            .rows
            .len()
            .checked_sub(1)
            .map(|last| rng.below(last + 1))
        else {
            break;
        };
        let Row {
            first: i,
            second: j,
            ..
        } = table.rows[at];
        // The last two come out small where 16 bits are all that is kept.
        let total = rng.pick(&[9_998, 9_999, 9_999, 10_000, 10_001, 65_536, 70_000]);
        fill(rng, &mut table, i, j, total);
    }
    of_table(&table, some_trials(rng, Call::WriteMatrix))
}

/// The circuits of one pair given amounts that add up to so much, or to as much
/// as a row can have.
fn fill(rng: &mut Rng, table: &mut Table, i: i64, j: i64, total: i64) {
    let mut left = total;
    let row = table
        .rows
        .iter_mut()
        .filter(|row| (row.first, row.second) == (i, j));
    let mut rows: Vec<&mut Row> = row.collect();
    let last = rng.below(rows.len());
    for (at, row) in rows.iter_mut().enumerate() {
        let part = if at < last {
            rng.between(0, left.min(9_999))
        } else {
            left.min(9_999)
        };
        row.amount = part;
        left -= part;
    }
}

pub fn damaged_tables(rng: &mut Rng, _: u64) -> Option<Case> {
    let mut case = about_the_limit(rng, 0)?;
    for _ in 0..rng.between(1, 2) {
        gen::damage_any(rng, &mut case.text, gen::damage_row);
    }
    Some(case)
}

/// Tables that are too long, or have too many rows.
pub fn long_tables(rng: &mut Rng, _: u64) -> Option<Case> {
    let (n, count) = (offices(rng), ROWS + rng.pick(&[1, 2, 100, 1_000]));
    let mut case = of_table(
        &gen::circuits(rng, n, count),
        some_trials(rng, Call::WriteMatrix),
    )?;
    if rng.chance(1, 2) {
        padded_length(rng, &mut case.text);
    }
    Some(case)
}
