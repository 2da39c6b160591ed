//! The twin's own checks of one turn at a time, run before any comparison: figures of
//! the stated cases (Rules, one turn at a time) and others worked out by hand, and
//! what the rules state of every answer.

use crate::bars::barred;
use crate::gen;
use crate::rng::Rng;
use crate::rules::{self, Way};
use crate::selfcheck::{holds, letters, same, table, Outcome};
use crate::sheet::table_text;
use crate::table::Table;
use crate::turns::{self, avoid, from_start, going, loads_turned, Turned, SENTENCES};

type Figures<'a> = (i64, i64, u32, &'a str);

fn figures(turned: &Turned) -> (i64, i64, u32, String) {
    let Turned {
        peak, link, turns, ..
    } = *turned;
    (peak, link, turns, letters(&turned.ways))
}

fn gives(text: &str, (peak, link, turns, ways): Figures) -> Outcome {
    let got = figures(&turns::answer(&table(text)?));
    same(text, got, (peak, link, turns, ways.to_owned()))
}

/// Tables of which one rule of ties or another decides, each with its answer.
pub const BY_HAND: [(&str, Figures); 14] = [
    (
        "R|5|4\nD|1|2|2\nD|1|4|5\nD|2|3|9\nD|2|4|11\nD|3|4|4\nD|3|5|3\n",
        (16, 1, 4, "BFFBFF"),
    ),
    (
        "R|8|4\nD|1|4|1\nD|2|3|1\nD|5|8|2\nD|6|7|2\n",
        (3, 5, 1, "BFBF"),
    ),
    ("R|4|4\nD|1|3|1\nD|2|4|1\n", (2, 1, 0, "BF")),
    ("R|2|4\n", (0, 1, 0, "")),
    ("R|2|4\nD|1|2|5\n", (5, 1, 0, "B")),
    // equal lists: the earlier row is turned
    ("R|2|4\nD|1|2|3\nD|1|2|3\n", (3, 1, 1, "FB")),
    ("R|2|4\nD|1|2|5\nD|1|2|3\n", (5, 1, 1, "FB")),
    // small turns are turns too
    ("R|3|4\nD|1|2|1\nD|1|2|1\nD|2|3|9\n", (9, 1, 2, "FFF")),
    (
        "R|2|4\nD|1|2|0\nD|1|2|3\nD|1|2|0\nD|1|2|3\n",
        (3, 1, 1, "BFBB"),
    ),
    ("R|4|4\nD|1|2|0\n", (0, 1, 0, "B")),
    ("R|3|4\nD|1|2|1\nD|1|3|1\nD|2|3|1\n", (1, 1, 1, "FBF")),
    // of equal lists the earlier row is turned
    ("R|4|4\nD|2|3|4\nD|2|3|4\n", (4, 1, 1, "BF")),
    // a list that runs out first is the smaller
    ("R|3|4\nD|1|2|2\nD|1|3|3\nD|1|3|2\n", (4, 1, 2, "FBF")),
    // of equal peaks the smallest link wins
    ("R|4|4\nD|1|2|1\nD|1|4|2\n", (2, 1, 1, "FB")),
];

/// The stated cases, and the walk through the ring of five from the start that
/// avoids link 2, as its source prints it.
pub fn by_hand() -> Outcome {
    for (text, due) in BY_HAND {
        gives(text, due)?;
    }
    let table = table(BY_HAND[0].0)?;
    let steps = [
        ("FBBBFF", vec![22, 0, 16, 28, 25]),
        ("FBFBFF", vec![13, 9, 7, 19, 16]),
        ("FFFBFF", vec![18, 14, 12, 14, 11]),
        ("BFFBFF", vec![16, 16, 14, 16, 13]),
    ];
    let mut now = going(
        &table,
        &table.rows,
        table.rows.iter().map(|row| avoid(row, 2)).collect(),
    );
    for (ways, loads) in steps {
        same("ways", letters(&now.ways), ways.to_owned())?;
        same("loads", now.loads.clone(), loads)?;
        if let Some(place) = turns::choice(&table.rows, &now, &SENTENCES) {
            now.ways[place] = turns::other(now.ways[place]);
            now = going(&table, &table.rows, now.ways);
        }
    }
    let end = turns::choice(&table.rows, &now, &SENTENCES);
    same("the end", end, None)?;
    same(
        "turns",
        from_start(&table, &table.rows, 2, &SENTENCES).turns,
        3,
    )
}

/// Each start's peak is at most M; no turn lowers an answer; turns are at most the
/// first peak less the last; and no peak is below M/2.
fn theorems(table: &Table) -> Outcome {
    let (rows, m) = (&table.rows, rules::rule_a(table).across);
    let answer = turns::answer(table);
    for a in 1..=table.n {
        let start = going(table, rows, rows.iter().map(|row| avoid(row, a)).collect());
        let first = rules::peak(&start.loads);
        holds("a start's peak is at most M", first <= m)?;
        holds("a start avoids its link", start.loads[a as usize - 1] == 0)?;
        let end = from_start(table, rows, a, &SENTENCES);
        let fall = first - end.peak;
        holds("turns are at most the fall", i64::from(end.turns) <= fall)?;
        let least = answer.peak < end.peak || answer.peak == end.peak && answer.link <= a;
        holds("the answer is the least, the smallest link", least)?;
        holds(
            "the answer is its start's",
            a != answer.link || end == answer,
        )?;
    }
    let loads = going(table, rows, answer.ways.clone()).loads;
    same("the peak", rules::peak(&loads), answer.peak)?;
    for (row, way) in rows.iter().zip(&answer.ways) {
        let after = rules::peak(&loads_turned(row, *way, &loads));
        holds("no turn lowers the answer", after >= answer.peak)?;
    }
    holds("no peak is below M/2", 2 * answer.peak >= m)
}

/// The least peak of all ways of sending so few rows.
fn least_of_all(table: &Table) -> i64 {
    let rows = &table.rows;
    let peaks = (0..1_u32 << rows.len()).map(|code| {
        let way = |at| if code >> at & 1 == 0 { Way::F } else { Way::B };
        rules::peak(&going(table, rows, (0..rows.len()).map(way).collect()).loads)
    });
    peaks.min().unwrap_or(0)
}

fn few_rows(rng: &mut Rng, n: i64) -> Table {
    let mut table = gen::sparse(rng, n, 8);
    let most = rng.pick(&[2, 9, 60]);
    for row in &mut table.rows {
        row.amount = rng.between(0, most);
    }
    table.rows.truncate(8);
    table
}

/// The theorems on random tables, and beside all ways of sending a few rows.
pub fn random_theorems(seed: u64) -> Outcome {
    for case in 0..400 {
        let mut rng = Rng::for_case(seed, 5_000, case);
        let n = rng.between(2, 16);
        let table = match case % 4 {
            0 => gen::shaped(&mut rng, n),
            1 => gen::circuits(&mut rng, n, 24),
            2 => gen::sparse(&mut rng, n, 30),
            _ => few_rows(&mut rng, n),
        };
        let mut outcome = theorems(&table);
        if outcome.is_ok() && table.rows.len() <= 8 {
            let (peak, least) = (turns::answer(&table).peak, least_of_all(&table));
            let proved = 2 * peak <= rules::rule_a(&table).across + 1;
            outcome = holds("nothing is below the least", least <= peak)
                .and_then(|()| holds("what is proved is the least", !proved || peak == least));
        }
        outcome.map_err(|what| {
            let text = barred(&table_text(&table));
            format!("seed {seed}, table {case}: {what}\n{text}")
        })?;
    }
    Ok(())
}
