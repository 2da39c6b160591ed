//! Faults of reading a matrix and of writing one: what mutant.rs lists behind
//! its own.

use crate::limits::{AMOUNT, OFFICES, ROWS, TEXT};
use crate::matrix::{self, Matrix, MatrixQuestions, MATRIX_QUESTIONS};
use crate::mutant::{hears, pairs, read_matrix, square, sums, told, Mutant};
use crate::table::{self, refuse, Line, Refusal, Row};
use crate::text_faults::*;

type Read = Result<Matrix, Refusal>;

pub static MATRIX_FAULTS: [Mutant; 71] = [
    read_matrix("matrix: leading zeros", |text| {
        matrix::read(&without_leading_zeros(text))
    }),
    read_matrix("matrix: 9 digits", |text| {
        matrix::read(&without_ninth_digit(text))
    }),
    read_matrix("matrix: final LF not asked for", |text| {
        matrix::read(&with_final_lf(text))
    }),
    read_matrix("matrix: CR LF taken for LF", |text| {
        matrix::read(&without_cr(text))
    }),
    read_matrix("matrix: 32,768 bytes refused", |text| {
        matrix::read(&past_limit(text))
    }),
    read_matrix("matrix: 32,769 bytes read", |text| {
        matrix::read(&within_limit(text))
    }),
    read_matrix("matrix: a tab at a line's end taken", without_last_tabs),
    read_matrix("matrix: one office taken", |text| sized(text, 1, 64)),
    read_matrix("matrix: two offices refused", |text| sized(text, 3, 64)),
    read_matrix("matrix: 64 offices refused", |text| sized(text, 2, 63)),
    read_matrix("matrix: 65 offices taken", |text| sized(text, 2, 65)),
    read_matrix("matrix: 9,999 refused", |text| {
        limited(text, |entry| entry >= AMOUNT)
    }),
    read_matrix("matrix: 10,000 taken", |text| {
        limited(text, |entry| entry > AMOUNT + 1)
    }),
    read_matrix("matrix: 3 before 2", three_before_2),
    read_matrix("matrix: 3 never", |text| sized(text, 0, usize::MAX)),
    read_matrix("matrix: 7 before 3", seven_before_3),
    read_matrix("matrix: 7 before 2 in a line", seven_before_2),
    read_matrix("matrix: 2 in any line first", |text| late(text, &[2])),
    read_matrix("matrix: 7 after all lines", |text| late(text, &[2, 3])),
    read_matrix("matrix: 17 and 18 before 7", |text| late(text, &[17, 18])),
    read_matrix("matrix: 17 as each line is read", diagonal_by_line),
    read_matrix("matrix: the number of lines first", lines_first),
    read_matrix("matrix: n is the number of lines", n_of_lines),
    read_matrix("matrix: a missing line is the last", missing_is_last),
    read_matrix("matrix: missing lines are zeros", with_lines),
    read_matrix("matrix: lines left over taken", without_lines),
    read_matrix("matrix: missing fields are zeros", |text| {
        fitted(text, true)
    }),
    read_matrix("matrix: fields left over taken", |text| fitted(text, false)),
    read_matrix("17: not asked", |text| {
        searched(text, |m| first(m, rows_first, &[18]))
    }),
    read_matrix("17: not asked of the last office", but_last),
    read_matrix("17: before every 18", |text| {
        searched(text, |m| in_turn(m, 17, 18))
    }),
    read_matrix("18: not asked", |text| {
        searched(text, |m| first(m, rows_first, &[17]))
    }),
    read_matrix("18: before every 17", |text| {
        searched(text, |m| in_turn(m, 18, 17))
    }),
    read_matrix("18: seen from the lower half", |text| {
        searched(text, in_lower_half)
    }),
    read_matrix("18: compared with its neighbour's mirror only", neighbours),
    read_matrix("18: compared in 8 bits", |text| searched(text, in_8_bits)),
    read_matrix("17, 18: column by column", columns),
    read_matrix("17, 18: the last faulty entry", |text| {
        searched(text, last_faulty)
    }),
    read_matrix("matrix: 16 never", |text| counted(text, |_| false)),
    read_matrix("matrix: 16 at 1,024 rows already", |text| {
        counted(text, |matrix| matrix::rows(matrix).len() >= ROWS)
    }),
    read_matrix("matrix: 16 at 497 rows", |text| {
        counted(text, |matrix| matrix::rows(matrix).len() > 496)
    }),
    read_matrix("matrix: 16 of both halves", |text| {
        counted(text, |matrix| 2 * matrix::rows(matrix).len() > ROWS)
    }),
    read_matrix("matrix: 16 of all pairs", |text| {
        counted(text, |matrix| zeros_kept(matrix).len() > ROWS)
    }),
    read_matrix("matrix: 16 before 17 and 18", |text| {
        searched(text, many_or_faulty)
    }),
    read_matrix("matrix: 16 on line 1", |text| many_at(text, 1, 0)),
    read_matrix("matrix: 16 with byte 1", |text| many_at(text, 0, 1)),
    told("matrix: 20 never", |text, _| matrix::read(text)),
    told("matrix: 20 after 1", twenty_after_1),
    told("matrix: 20 last of all", twenty_last),
    told("matrix: 20 on line 1", twenty_on_line_1),
    told("matrix: 20 asked in 8 bits", |text, fibres| {
        matrix::read_told(text, fibres % 256)
    }),
    hears("matrix: four fibres whatever is told", |_, family| {
        (4, family)
    }),
    pairs("matrix: zero entries kept", zeros_kept),
    pairs("matrix: rows by second node, then first", by_second),
    pairs("matrix: both halves added", doubled),
    pairs("matrix: the last office left out", without_last),
    sums("sums: the first row alone", |text| {
        summed(text, first_alone, AMOUNT)
    }),
    sums("sums: the last row alone", |text| {
        summed(text, |_, d| d, AMOUNT)
    }),
    sums("sums: the largest row", |text| {
        summed(text, i64::max, AMOUNT)
    }),
    sums("sums: 9,999 for more", |text| {
        summed(text, |sum, d| (sum + d).min(AMOUNT), AMOUNT)
    }),
    sums("sums: 9,999 refused", |text| {
        summed(text, |sum, d| sum + d, AMOUNT - 1)
    }),
    sums("sums: 10,000 taken", |text| {
        summed(text, |sum, d| sum + d, AMOUNT + 1)
    }),
    sums("sums: in 16 bits, at the end", in_16_bits),
    sums("19: on the pair's first row", |text| {
        moved(text, |of_pair, _| of_pair[0])
    }),
    sums("19: on the pair's last row", |text| {
        moved(text, |of_pair, _| of_pair[of_pair.len() - 1])
    }),
    sums("19: on the row before", |text| moved(text, |_, at| at - 1)),
    sums("19: the last sum that passes", last_sum),
    sums("19: before the table's reasons", sums_first),
    square("matrix: upper half alone", upper_half),
    square("matrix: the diagonal left out", without_diagonal),
    square("matrix: a tab at each line's end", |matrix| {
        let text = String::from_utf8_lossy(&matrix::matrix_text(matrix)).into_owned();
        text.replace('\n', "\t\n").into_bytes()
    }),
];

// Faults of reading: the text.

fn map_lines(text: &[u8], change: impl Fn(usize, &[u8]) -> Vec<u8>) -> Vec<u8> {
    let lines = text.split_inclusive(|byte| *byte == b'\n').enumerate();
    lines.flat_map(|(at, line)| change(at, line)).collect()
}

fn without_last_tabs(text: &[u8]) -> Read {
    let kept = map_lines(text, |_, line| match line.strip_suffix(b"\t\n") {
        Some(rest) => [rest, b"\n"].concat(),
        None => line.to_vec(),
    });
    matrix::read(&kept)
}

/// How many fields a line has, badly spelled or not.
fn fields(line: &[u8]) -> usize {
    line.iter().filter(|byte| **byte == b'\t').count() + 1
}

fn first_fields(text: &[u8]) -> usize {
    let first = text.split(|byte| *byte == b'\n').next();
    first.map_or(0, fields)
}

fn three_before_2(text: &[u8]) -> Read {
    let off = (MATRIX_QUESTIONS.off_size)(first_fields(text));
    matrix::read(text).map_err(|refusal| match refusal {
        Refusal {
            reason: 2, line: 1, ..
        } if off => Refusal {
            reason: 3,
            line: 1,
            byte: 1,
        },
        _ => refusal,
    })
}

// Faults of reading: lines.

fn sized(text: &[u8], low: usize, high: usize) -> Read {
    let off_size: fn(usize) -> bool = match (low, high) {
        (1, _) => |n| !(1..=64).contains(&n),
        (3, _) => |n| !(3..=64).contains(&n),
        (_, 63) => |n| !(2..=63).contains(&n),
        (_, 65) => |n| !(2..=65).contains(&n),
        _ => |_| false,
    };
    matrix::read_asking(
        text,
        &MatrixQuestions {
            off_size,
            ..MATRIX_QUESTIONS
        },
    )
}

fn limited(text: &[u8], too_much: fn(i64) -> bool) -> Read {
    matrix::read_asking(
        text,
        &MatrixQuestions {
            too_much,
            ..MATRIX_QUESTIONS
        },
    )
}

fn seven_before_3(text: &[u8]) -> Read {
    match matrix::read(text) {
        Err(Refusal { reason: 3, .. }) => {
            sized(text, 0, usize::MAX).or_else(|refusal| match refusal {
                Refusal {
                    reason: 7, line: 1, ..
                } => Err(refusal),
                _ => refuse(3, 1, 1),
            })
        }
        read => read,
    }
}

/// The line that is refused, if a well-spelled number of it is over 9,999.
fn seven_before_2(text: &[u8]) -> Read {
    matrix::read(text).map_err(|refusal| {
        let at = refusal.line.saturating_sub(1) as usize;
        let line = table::lines(text).get(at).copied();
        let over = |line: &Line| {
            let mut fields = line.bytes.split(|byte| *byte == b'\t');
            fields.position(|field| table::number(field).is_some_and(table::too_much))
        };
        match (
            refusal.reason,
            line.and_then(|line| Some((line, over(&line)?))),
        ) {
            (2, Some((line, field))) => Refusal {
                reason: 7,
                byte: table::start_of(&line, field),
                ..refusal
            },
            _ => refusal,
        }
    })
}

/// These reasons, given where they hold if nothing is over 9,999 and no ring too
/// large, come before all others.
fn late(text: &[u8], reasons: &[u32]) -> Read {
    let too_much = |_| false;
    let off_size: fn(usize) -> bool = if reasons == [2] {
        |_| false
    } else {
        MATRIX_QUESTIONS.off_size
    };
    let lenient = MatrixQuestions {
        too_much,
        off_size,
        ..MATRIX_QUESTIONS
    };
    match matrix::read_asking(text, &lenient) {
        Err(refusal) if reasons.contains(&refusal.reason) => Err(refusal),
        _ => matrix::read(text),
    }
}

fn diagonal_by_line(text: &[u8]) -> Read {
    let read = matrix::read(text);
    let before = read
        .as_ref()
        .err()
        .map_or(0, |refusal| refusal.line as usize);
    let lines = table::lines(text);
    for (at, line) in lines.iter().enumerate().take(before.saturating_sub(1)) {
        let entry = matrix::entries(line).and_then(|entries| entries.get(at).copied());
        if entry.is_some_and(|entry| entry != 0) {
            return refuse(17, at as u32 + 1, table::start_of(line, at));
        }
    }
    read
}

fn lines_first(text: &[u8]) -> Read {
    let (lines, n) = (table::lines(text).len(), first_fields(text));
    if text.len() <= TEXT && lines != n {
        return refuse(2, lines.min(n) as u32 + 1, 1);
    }
    matrix::read(text)
}

fn n_of_lines(text: &[u8]) -> Read {
    let lines = table::lines(text).len();
    if text.len() <= TEXT && lines != first_fields(text) {
        return refuse(2, 1, 1);
    }
    matrix::read(text)
}

fn missing_is_last(text: &[u8]) -> Read {
    let lines = table::lines(text).len() as u32;
    matrix::read(text).map_err(|refusal| {
        let line = refusal.line.min(lines);
        Refusal { line, ..refusal }
    })
}

fn with_lines(text: &[u8]) -> Read {
    let (lines, n) = (table::lines(text).len(), first_fields(text));
    let zeros = vec!["0"; n].join("\t") + "\n";
    let missing = if n <= OFFICES as usize {
        n.saturating_sub(lines)
    } else {
        0
    };
    matrix::read(&[text, zeros.repeat(missing).as_bytes()].concat())
}

fn without_lines(text: &[u8]) -> Read {
    let n = first_fields(text);
    let kept = map_lines(
        text,
        |at, line| if at < n { line.to_vec() } else { Vec::new() },
    );
    if text.len() > TEXT {
        return refuse(1, 0, 0);
    }
    matrix::read(&kept)
}

/// Later lines made as long as the first, if shorter or if longer.
fn fitted(text: &[u8], shorter: bool) -> Read {
    let n = first_fields(text);
    let fit = |at: usize, line: &[u8]| match (line.strip_suffix(b"\n"), fields(line)) {
        (Some(body), count) if at > 0 && shorter && count < n => {
            [body, "\t0".repeat(n - count).as_bytes(), b"\n"].concat()
        }
        (Some(body), count) if at > 0 && !shorter && count > n => {
            let kept: Vec<&[u8]> = body.split(|byte| *byte == b'\t').take(n).collect();
            [kept.join(&b'\t').as_slice(), b"\n"].concat()
        }
        _ => line.to_vec(),
    };
    if n > OFFICES as usize || text.len() > TEXT {
        return matrix::read(text);
    }
    matrix::read(&map_lines(text, fit))
}

// Faults of reading: entries.

fn searched(text: &[u8], faulty: fn(&Matrix) -> Option<Refusal>) -> Read {
    matrix::read_asking(
        text,
        &MatrixQuestions {
            faulty,
            ..MATRIX_QUESTIONS
        },
    )
}

fn counted(text: &[u8], too_many: fn(&Matrix) -> bool) -> Read {
    matrix::read_asking(
        text,
        &MatrixQuestions {
            too_many,
            ..MATRIX_QUESTIONS
        },
    )
}

/// Too many rows by the upper half, whatever stands below it.
fn many_or_faulty(matrix: &Matrix) -> Option<Refusal> {
    if (MATRIX_QUESTIONS.too_many)(matrix) {
        return refuse::<Matrix>(16, 0, 0).err();
    }
    (MATRIX_QUESTIONS.faulty)(matrix)
}

fn many_at(text: &[u8], line: u32, byte: u32) -> Read {
    matrix::read(text).map_err(|refusal| match refusal {
        Refusal { reason: 16, .. } => Refusal {
            reason: 16,
            line,
            byte,
        },
        _ => refusal,
    })
}

/// All entries, in reading order.
fn rows_first(n: usize) -> Vec<(usize, usize)> {
    (0..n * n).map(|at| (at / n, at % n)).collect()
}

fn of_entry(matrix: &Matrix, i: usize, j: usize) -> Option<Refusal> {
    let entry = matrix.lines[i][j];
    if i == j && entry != 0 {
        return Some(matrix::at_entry(matrix, i, j, 17));
    }
    (entry != matrix.lines[j][i]).then(|| matrix::at_entry(matrix, i, j, 18))
}

/// The first faulty entry in an order of its own that has one of these reasons.
fn first(
    matrix: &Matrix,
    order: fn(usize) -> Vec<(usize, usize)>,
    reasons: &[u32],
) -> Option<Refusal> {
    let entries = order(matrix.lines.len()).into_iter();
    let mut faults = entries.filter_map(|(i, j)| of_entry(matrix, i, j));
    faults.find(|fault| reasons.contains(&fault.reason))
}

fn in_turn(matrix: &Matrix, one: u32, other: u32) -> Option<Refusal> {
    first(matrix, rows_first, &[one]).or_else(|| first(matrix, rows_first, &[other]))
}

fn in_lower_half(matrix: &Matrix) -> Option<Refusal> {
    let lower = |n| rows_first(n).into_iter().filter(|(i, j)| j <= i).collect();
    first(matrix, lower, &[17, 18])
}

fn last_faulty(matrix: &Matrix) -> Option<Refusal> {
    let backwards = |n| rows_first(n).into_iter().rev().collect();
    first(matrix, backwards, &[17, 18])
}

fn columns(text: &[u8]) -> Read {
    searched(text, |matrix| {
        let columns = |n| rows_first(n).into_iter().map(|(i, j)| (j, i)).collect();
        first(matrix, columns, &[17, 18])
    })
}

fn but_last(text: &[u8]) -> Read {
    searched(text, |matrix| {
        let but_last = |n| {
            rows_first(n)
                .into_iter()
                .filter(|at| *at != (n - 1, n - 1))
                .collect()
        };
        first(matrix, but_last, &[17, 18])
    })
}

fn neighbours(text: &[u8]) -> Read {
    searched(text, |matrix| {
        let near = |n| {
            rows_first(n)
                .into_iter()
                .filter(|(i, j)| i.abs_diff(*j) <= 1)
                .collect()
        };
        first(matrix, near, &[17, 18])
    })
}

fn in_8_bits(matrix: &Matrix) -> Option<Refusal> {
    let short = |line: &Vec<i64>| line.iter().map(|entry| entry % 256).collect();
    let mut shorter = Matrix {
        lines: matrix.lines.iter().map(short).collect(),
    };
    for at in 0..shorter.lines.len() {
        shorter.lines[at][at] = matrix.lines[at][at];
    }
    let entries = rows_first(shorter.lines.len()).into_iter();
    let mut faults = entries.filter_map(|(i, j)| {
        let fault = of_entry(&shorter, i, j)?;
        Some(matrix::at_entry(matrix, i, j, fault.reason))
    });
    faults.next()
}

// Faults of what is told.

fn twenty_after_1(text: &[u8], fibres: u32) -> Read {
    table::read_length(text)?;
    matrix::read_told(text, fibres)
}

fn twenty_last(text: &[u8], fibres: u32) -> Read {
    matrix::read(text)?;
    matrix::read_told(text, fibres)
}

fn twenty_on_line_1(text: &[u8], fibres: u32) -> Read {
    matrix::read_told(text, fibres).map_err(|refusal| match refusal.reason {
        20 => Refusal {
            reason: 20,
            line: 1,
            byte: 1,
        },
        _ => refusal,
    })
}

// Faults of the rows.

/// A row for each pair, with an amount of its own making.
fn rows_by(matrix: &Matrix, amount: impl Fn(usize, usize) -> i64) -> Vec<Row> {
    let n = matrix.lines.len();
    let mut rows = Vec::new();
    for (i, j) in rows_first(n).into_iter().filter(|(i, j)| i < j) {
        let d = amount(i, j);
        let (i, j) = (i as i64 + 1, j as i64 + 1);
        rows.push(Row::of(i, j, d));
    }
    rows
}

fn zeros_kept(matrix: &Matrix) -> Vec<Row> {
    rows_by(matrix, |i, j| matrix.lines[i][j])
}

/// Comes to the same.
pub fn lower_half(matrix: &Matrix) -> Vec<Row> {
    let mut rows = rows_by(matrix, |i, j| matrix.lines[j][i]);
    rows.retain(|row| row.amount > 0);
    rows
}

fn doubled(matrix: &Matrix) -> Vec<Row> {
    let mut rows = rows_by(matrix, |i, j| matrix.lines[i][j] + matrix.lines[j][i]);
    rows.retain(|row| row.amount > 0);
    rows
}

fn by_second(matrix: &Matrix) -> Vec<Row> {
    let mut rows = matrix::rows(matrix);
    rows.sort_by_key(|row| (row.second, row.first));
    rows
}

fn without_last(matrix: &Matrix) -> Vec<Row> {
    let mut rows = matrix::rows(matrix);
    let n = matrix.lines.len() as i64;
    rows.retain(|row| row.second < n || row.first < n - 1);
    rows
}

// Faults of writing.

/// Rows taken in another way, or to another limit.
fn summed(text: &[u8], take: fn(i64, i64) -> i64, limit: i64) -> Read {
    matrix::take_in(&table::read(text)?, take, limit)
}

fn first_alone(sum: i64, d: i64) -> i64 {
    if sum > 0 {
        sum
    } else {
        d
    }
}

/// The limit is asked of whole sums that have lost their upper bits.
fn in_16_bits(text: &[u8]) -> Read {
    let wrapped = summed(text, |sum, d| (sum + d) % 65_536, i64::MAX)?;
    if wrapped.lines.iter().flatten().any(|sum| *sum > AMOUNT) {
        return summed(text, |sum, d| sum + d, AMOUNT);
    }
    Ok(wrapped)
}

/// 19 on another row: chosen from the places of the pair's rows and its own.
fn moved(text: &[u8], choose: fn(&[usize], usize) -> usize) -> Read {
    let table = table::read(text)?;
    matrix::add_up(&table).map_err(|refusal| {
        let at = refusal.line as usize - 2;
        let nodes =
            |row: &Row| (row.first, row.second) == (table.rows[at].first, table.rows[at].second);
        let places = (0..table.rows.len()).filter(|place| nodes(&table.rows[*place]));
        let line = choose(&places.collect::<Vec<_>>(), at) as u32 + 2;
        Refusal { line, ..refusal }
    })
}

fn last_sum(text: &[u8]) -> Read {
    let mut table = table::read(text)?;
    let mut read = matrix::add_up(&table);
    while let Err(Refusal { line, .. }) = read {
        // What has passed counts for nothing from here on.
        let Row {
            first: i,
            second: j,
            ..
        } = table.rows[line as usize - 2];
        for row in table
            .rows
            .iter_mut()
            .filter(|row| (row.first, row.second) == (i, j))
        {
            row.amount = 0;
        }
        let next = matrix::add_up(&table);
        if next.is_ok() {
            break;
        }
        read = next;
    }
    read
}

fn sums_first(text: &[u8]) -> Read {
    let read = table::read(text);
    let accepted = read
        .as_ref()
        .err()
        .map_or(0, |refusal| refusal.line as usize);
    let lines = text.split_inclusive(|byte| *byte == b'\n');
    let before: Vec<u8> = lines
        .take(accepted.saturating_sub(1))
        .flatten()
        .copied()
        .collect();
    if let Ok(above) = table::read(&before) {
        matrix::add_up(&above)?;
    }
    matrix::add_up(&read?)
}

fn upper_half(matrix: &Matrix) -> Vec<u8> {
    let mut upper = matrix.clone();
    for (i, j) in rows_first(upper.lines.len()) {
        if j < i {
            upper.lines[i][j] = 0;
        }
    }
    matrix::matrix_text(&upper)
}

fn without_diagonal(matrix: &Matrix) -> Vec<u8> {
    let mut lines = matrix.lines.clone();
    for (at, line) in lines.iter_mut().enumerate() {
        line.remove(at);
    }
    matrix::matrix_text(&Matrix { lines })
}
