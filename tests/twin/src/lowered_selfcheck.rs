//! The twin's own checks of lowered rooms: tables by hand, and what is promised of every
//! plan that is made by them.

use crate::bars::barred;
use crate::check;
use crate::gen;
use crate::lowered::{self, SENTENCES};
use crate::rng::Rng;
use crate::rules::{self, front_holds, Plan, Sent};
use crate::selfcheck::{holds, letters, same, table, Outcome};
use crate::sheet::{sheet_text, table_text};
use crate::table::Table;

/// Tables with what is by hand of each: the rooms, what is sent front and back, and the
/// peak and the ways by rule D.
struct ByHand {
    text: &'static str,
    rooms: &'static [i64],
    sent: &'static [(i64, i64)],
    peak: i64,
    ways: &'static str,
}

const BY_HAND: [ByHand; 7] = [
    ByHand {
        text: "R|2|4\n",
        rooms: &[0, 0],
        sent: &[],
        peak: 0,
        ways: "",
    },
    ByHand {
        text: "R|2|4\nD|1|2|5\n",
        rooms: &[5, 5],
        sent: &[(5, 5)],
        peak: 5,
        ways: "F",
    },
    ByHand {
        text: "R|4|4\nD|1|2|1\n",
        rooms: &[1, 1, 1, 1],
        sent: &[(1, 1)],
        peak: 1,
        ways: "F",
    },
    ByHand {
        text: "R|4|4\nD|1|3|1\nD|2|4|1\n",
        rooms: &[2, 2, 2, 2],
        sent: &[(1, 1), (1, 1)],
        peak: 2,
        ways: "FB",
    },
    // of the same two offices one is split
    ByHand {
        text: "R|4|4\nD|1|3|1\nD|1|3|1\nD|1|3|1\nD|2|4|1\n",
        rooms: &[4, 4, 4, 4],
        sent: &[(2, 0), (1, 1), (0, 2), (1, 1)],
        peak: 3,
        ways: "FFBB",
    },
    ByHand {
        text: "R|5|4\nD|1|2|2\nD|1|4|5\nD|2|3|9\nD|2|4|11\nD|3|4|4\nD|3|5|3\n",
        rooms: &[16, 28, 24, 28, 22],
        sent: &[(4, 0), (0, 10), (18, 0), (10, 12), (8, 0), (6, 0)],
        peak: 19,
        ways: "FBFBFF",
    },
    ByHand {
        text: "R|8|4\nD|1|4|1\nD|2|3|1\nD|5|8|2\nD|6|7|2\n",
        rooms: &[4, 6, 4, 2, 2, 6, 2, 2],
        sent: &[(2, 0), (2, 0), (2, 2), (4, 0)],
        peak: 4,
        ways: "FFFF",
    },
];

fn halves(sent: &[Sent]) -> Vec<(i64, i64)> {
    sent.iter().map(|sent| (sent.front, sent.back)).collect()
}

pub fn by_hand() -> Outcome {
    for case in &BY_HAND {
        let table = table(case.text)?;
        let m = rules::rule_a(&table).across;
        let rooms = lowered::rooms(&table, m, &SENTENCES);
        let plan = lowered::plan(&table);
        same(case.text, &rooms[1..], case.rooms)?;
        same(case.text, &plan.split, &case.rooms.to_vec())?;
        same(case.text, halves(&plan.sent), case.sent.to_vec())?;
        let whole = (plan.peak, letters(&plan.ways));
        same(case.text, whole, (case.peak, case.ways.to_owned()))?;
    }
    Ok(())
}

/// No room is below 0 before or after a row is sent, and what rule B halves is even.
fn sends(table: &Table, mut room: Vec<i64>) -> Outcome {
    for (at, row) in table.rows.iter().enumerate() {
        holds("no room below 0", room[1..].iter().all(|room| *room >= 0))?;
        let s = rules::least(row, &table.rows[at + 1..], &room);
        holds("s is even and not below 0", s >= 0 && s % 2 == 0)?;
        let front = (2 * row.amount).min(s / 2);
        for link in 1..=table.n {
            let back = 2 * row.amount - front;
            let over = if front_holds(row, link) { front } else { back };
            room[link as usize] -= over;
        }
    }
    holds("no room below 0", room[1..].iter().all(|room| *room >= 0))
}

fn accepted(table: &Table, plan: &Plan) -> Outcome {
    let read = check::read(&sheet_text(table, plan)).map(|_| ());
    same("the sheet", read, Ok(()))
}

/// What holds by both rooms; the same split peak; the loads are the lowered rooms, none
/// above the full one; rule C has nothing to do; and the checker accepts the sheets.
fn theorems(table: &Table) -> Outcome {
    let m = rules::rule_a(table).across;
    let rooms = lowered::rooms(table, m, &SENTENCES);
    sends(table, vec![m; table.n as usize + 1])?;
    sends(table, rooms.clone())?;
    let plan = lowered::plan(table);
    let peaks = (
        rules::peak(&plan.split),
        rules::peak(&rules::plan(table).split),
    );
    same("the split peaks", peaks, (m, m))?;
    same("the loads", &plan.split[..], &rooms[1..])?;
    let sent = rules::send(table, rooms);
    same("rule C", plan.sent.clone(), sent)?;
    accepted(table, &plan)?;
    match lowered::best_plan(table) {
        Ok(best) => {
            same("the split routing", &best.sent, &plan.sent)?;
            holds("at most rule D's peak", best.peak <= plan.peak)?;
            accepted(table, &best)
        }
        Err(refusal) => same("23", refusal.reason, 23),
    }
}

/// Every way of dividing the rows in halves, from one row on: none is below these loads.
fn none_below(table: &Table, loads: &[i64], sent: &mut Vec<Sent>) -> Outcome {
    let Some(row) = table.rows.get(sent.len()) else {
        let links = 1..=table.n;
        let other = links.map(|link| rules::split_load(&table.rows, sent, link));
        let other: Vec<i64> = other.collect();
        let below = other.iter().zip(loads).all(|(one, load)| one <= load);
        return holds("no division is below", !below || other == loads);
    };
    for front in 0..=2 * row.amount {
        let back = 2 * row.amount - front;
        sent.push(Sent { front, back });
        let outcome = none_below(table, loads, sent);
        sent.pop();
        outcome?;
    }
    Ok(())
}

/// On small rings, of few small rows.
fn minimal(rng: &mut Rng) -> Outcome {
    let (n, count) = (rng.between(2, 6), rng.between(0, 4));
    let mut table = gen::circuits(rng, n, count as usize);
    table.rows.truncate(4);
    for row in &mut table.rows {
        row.amount = rng.between(0, 2);
    }
    let loads = lowered::plan(&table).split;
    let outcome = none_below(&table, &loads, &mut Vec::new());
    outcome.map_err(|what| format!("{what}\n{}", barred(&table_text(&table))))
}

/// The theorems on random tables.
pub fn random_theorems(seed: u64) -> Outcome {
    for case in 0..400 {
        let mut rng = Rng::for_case(seed, 7_500, case);
        let table = gen::for_theorems(&mut rng, case);
        minimal(&mut rng)?;
        theorems(&table).map_err(|what| {
            let text = barred(&table_text(&table));
            format!("seed {seed}, table {case}: {what}\n{text}")
        })?;
    }
    Ok(())
}
