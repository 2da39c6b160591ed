//! Sheets as other tools would fill them: other splits, cuts and ways than
//! ours, with true figures; and sheets with one figure that is false.

use crate::gen::{self, Amounts};
use crate::rng::Rng;
use crate::rules::{self, Cut, Plan, Sent, Way};
use crate::table::{Row, Table};

/// A plan with a split, a cut and ways drawn each for itself, and true figures.
/// Most are accepted; some break the bound, some name a cut that proves nothing.
pub fn plan(rng: &mut Rng, table: &Table) -> Plan {
    let largest = rules::rule_a(table);
    let sent = sending(rng, table, largest);
    let ways = ways(rng, table, &sent);
    let cut = cut(rng, table, largest);
    rules::figures(table, cut, sent, ways)
}

/// Rule B with rule C or without it, in table order or in another; then, some
/// of the time, amounts moved about. One time out of twelve each row halved.
fn sending(rng: &mut Rng, table: &Table, largest: Cut) -> Vec<Sent> {
    let Cut { g, h, across: m } = largest;
    if rng.chance(1, 12) {
        return halved(table);
    }
    let mut sent = if rng.chance(1, 2) {
        in_any_order(rng, table, m)
    } else {
        rules::rule_b(table, m)
    };
    if rng.chance(1, 3) {
        rules::rule_c(&table.rows, &mut sent);
    }
    let all: Vec<i64> = (1..=table.n).collect();
    match rng.below(12) {
        0..=5 => moved(rng, table, m, &all, &mut sent),
        // Then the cut's own links do not tell that the peak is larger.
        6 => moved(rng, table, m, &[g, h], &mut sent),
        _ => (),
    }
    sent
}

/// Each row sends half of its amount either way.
fn halved(table: &Table) -> Vec<Sent> {
    let half = |row: &Row| Sent {
        front: row.amount,
        back: row.amount,
    };
    table.rows.iter().map(half).collect()
}

/// Rule B keeps loads within M whatever the order in which rows are sent.
fn in_any_order(rng: &mut Rng, table: &Table, m: i64) -> Vec<Sent> {
    let mut order: Vec<usize> = (0..table.rows.len()).collect();
    for at in (1..order.len()).rev() {
        order.swap(at, rng.below(at + 1));
    }
    let (front, back) = (0, 0);
    let mut sent = vec![Sent { front, back }; order.len()];
    let rows = order.iter().map(|at| table.rows[*at]).collect();
    let shuffled = Table { rows, ..*table };
    for (at, amounts) in order.iter().zip(rules::rule_b(&shuffled, m)) {
        sent[*at] = amounts;
    }
    sent
}

/// Amounts moved in two rows at a time, wherever none of these links then has a
/// load above M.
fn moved(rng: &mut Rng, table: &Table, m: i64, links: &[i64], sent: &mut Vec<Sent>) {
    let rows = table.rows.len();
    for _ in 0..if rows < 2 { 0 } else { 24 } {
        let mut tried = sent.clone();
        for _ in 0..2 {
            let row = &mut tried[rng.below(rows)];
            let top = if rng.chance(1, 2) { 1 } else { 500 };
            let t = rng.between(-row.front.min(top), row.back.min(top));
            row.front += t;
            row.back -= t;
        }
        let load = |link: &i64| rules::split_load(&table.rows, &tried, *link);
        if links.iter().all(|link| load(link) <= m) {
            *sent = tried;
        }
    }
}

/// Rule D's ways; or some of the split rows turned, or all of them F.
fn ways(rng: &mut Rng, table: &Table, sent: &[Sent]) -> Vec<Way> {
    let mut ways = rules::rule_d(&table.rows, sent);
    let what = rng.below(8);
    let turned = rng.between(1, 8) as usize;
    for (way, sent) in ways.iter_mut().zip(sent) {
        let split = rules::is_split(sent);
        match what {
            0 if split => *way = Way::F,
            1..=3 if split && rng.chance(turned, 8) => *way = other(*way),
            _ => (),
        }
    }
    ways
}

fn other(way: Way) -> Way {
    match way {
        Way::F => Way::B,
        Way::B => Way::F,
    }
}

/// All cuts of a ring, with true across numbers.
pub fn cuts(table: &Table) -> Vec<Cut> {
    let mut cuts = Vec::new();
    for (g, h) in gen::pairs(table.n) {
        let across = rules::across(&table.rows, g, h);
        cuts.push(Cut { g, h, across });
    }
    cuts
}

/// Another cut of the same size, if there is one; one time out of eight any.
fn cut(rng: &mut Rng, table: &Table, largest: Cut) -> Cut {
    let mut cuts = cuts(table);
    if !rng.chance(1, 8) {
        cuts.retain(|cut| cut.across == largest.across);
    }
    rng.pick(&cuts)
}

/// A row with what the sheet says of it.
type Filled = (Row, Sent, Way);

/// The sheet of these rows on a ring with the cut g, h and true figures.
fn of_rows(ring: &Table, g: i64, h: i64, mut filled: Vec<Filled>) -> (Table, Plan) {
    filled.sort_by_key(|(row, _, _)| (row.first, row.second));
    let rows: Vec<Row> = filled.iter().map(|(row, _, _)| *row).collect();
    let sent = filled.iter().map(|(_, sent, _)| *sent).collect();
    let ways = filled.iter().map(|(_, _, way)| *way).collect();
    let across = rules::across(&rows, g, h);
    let table = Table { rows, ..*ring };
    let plan = rules::figures(&table, Cut { g, h, across }, sent, ways);
    (table, plan)
}

/// Rows that all cross one another but for circuits, each halved: every load is
/// the sum of all amounts. The more rows go the same way, the nearer is the
/// bound.
pub fn crossing(rng: &mut Rng, n: i64) -> (Table, Plan) {
    let half = n / 2;
    let amounts = rng.pick(&[
        Amounts::Always(1),
        Amounts::Always(9_999),
        Amounts::UpTo(3),
        Amounts::Mixed,
    ]);
    let mut table = gen::full(rng, n, amounts);
    table.rows.retain(|row| row.second - row.first == half);
    let kept = rng.between(2, 8) as usize;
    table.rows.retain(|_| rng.chance(kept, 8));
    if !table.rows.is_empty() && rng.chance(1, 4) {
        let count = table.rows.len() + rng.below(3);
        gen::more_circuits(rng, &mut table, count);
    }
    let mut filled = turned(rng, &table);
    if rng.chance(1, 2) {
        whole_rows(rng, n, &mut filled);
    }
    of_rows(&table, half, n, filled)
}

/// Two whole rows of one amount, whose fronts hold link n/2 and not link n: the
/// inner goes front and the outer back, so no link is used by both, and the
/// across number grows as the loads do. They may be larger than every split
/// row, and the bound takes no notice of them.
fn whole_rows(rng: &mut Rng, n: i64, filled: &mut Vec<Filled>) {
    let half = n / 2;
    let (i, j) = (rng.between(1, half), rng.between(half + 1, n));
    let (out_i, out_j) = (rng.between(1, i), rng.between(j, n));
    let d = rng.pick(&[1, 2, 40, 9_999]);
    let (inner, outer) = (Row::of(i, j, d), Row::of(out_i, out_j, d));
    let (front, back) = (2 * d, 0);
    filled.push((inner, Sent { front, back }, Way::F));
    let (front, back) = (0, 2 * d);
    filled.push((outer, Sent { front, back }, Way::B));
}

/// Rows that all have one end on either side of a cut, each halved, so many at
/// least; one row is large, so that the bound leaves room.
pub fn all_across(rng: &mut Rng, n: i64, count: usize) -> (Table, Plan) {
    let cuts = gen::pairs(n);
    let (g, h) = rng.pick(&cuts);
    let amounts = rng.pick(&[Amounts::Always(1), Amounts::UpTo(9), Amounts::Mixed]);
    let mut table = gen::full(rng, n, amounts);
    let holds_one = |row: &Row| rules::front_holds(row, g) != rules::front_holds(row, h);
    table.rows.retain(holds_one);
    let kept = rng.between(1, 8) as usize;
    table.rows.retain(|_| rng.chance(kept, 8));
    if table.rows.is_empty() {
        let (i, j, d) = (g, g + 1, 1);
        table.rows.push(Row::of(i, j, d));
    }
    gen::more_circuits(rng, &mut table, count);
    let at = rng.below(table.rows.len());
    table.rows[at].amount = rng.between(30, 9_999);
    let filled = turned(rng, &table);
    of_rows(&table, g, h, filled)
}

/// Each row halved and sent F so many times out of eight. A row of 0 goes F.
fn turned(rng: &mut Rng, table: &Table) -> Vec<Filled> {
    let front = rng.pick(&[3, 4, 4, 5, 6, 7, 8, 8]);
    let mut filled = Vec::new();
    for (row, sent) in table.rows.iter().zip(halved(table)) {
        let back = row.amount > 0 && !rng.chance(front, 8);
        filled.push((*row, sent, if back { Way::B } else { Way::F }));
    }
    filled
}

/// One more or one less, but never below 0, which no sheet can spell; now and
/// then so much more that 16 bits cannot tell.
fn by_one(rng: &mut Rng, number: &mut i64) {
    if rng.chance(1, 10) {
        *number += 65_536;
    } else if *number == 0 || rng.chance(1, 2) {
        *number += 1;
    } else {
        *number -= 1;
    }
}

/// A sheet with one figure off by one, and all that follows from it made true,
/// so that one reason alone can tell.
pub fn off_by_one(rng: &mut Rng, table: &mut Table, plan: &mut Plan) {
    if rng.chance(1, 2) && !table.rows.is_empty() {
        row_off(rng, 0, table, plan);
    } else {
        figure_off(rng, table, plan);
    }
}

/// A row's amount, front, back, both, or its way, in one of the rows from a
/// place on; then true figures.
pub fn row_off(rng: &mut Rng, from: usize, table: &mut Table, plan: &mut Plan) {
    let at = from + rng.below(table.rows.len() - from);
    let row = &mut plan.sent[at];
    match rng.below(6) {
        0 => by_one(rng, &mut row.front),
        1 => by_one(rng, &mut row.back),
        2 if row.front > 0 => (row.front, row.back) = (row.front - 1, row.back + 1),
        3 if row.back > 0 => (row.front, row.back) = (row.front + 1, row.back - 1),
        4 => by_one(rng, &mut table.rows[at].amount),
        _ => plan.ways[at] = other(plan.ways[at]),
    }
    let Cut { g, h, .. } = plan.cut;
    let across = rules::across(&table.rows, g, h);
    let (sent, ways) = (plan.sent.clone(), plan.ways.clone());
    *plan = rules::figures(table, Cut { g, h, across }, sent, ways);
}

/// A figure of the C, L or Z lines; what stands below it fits the false figure.
fn figure_off(rng: &mut Rng, table: &Table, plan: &mut Plan) {
    let at = rng.below(table.n as usize);
    let Cut { g, h, across } = plan.cut;
    match rng.below(10) {
        0 => by_one(rng, &mut plan.cut.across),
        1 => by_one(rng, &mut plan.cut.g),
        2 => by_one(rng, &mut plan.cut.h),
        3 => {
            by_one(rng, &mut plan.cut.g);
            plan.cut.across = rules::across(&table.rows, plan.cut.g, plan.cut.h);
        }
        4 => by_one(rng, &mut plan.split[at]),
        5 => {
            by_one(rng, &mut plan.unsplit[at]);
            plan.peak = rules::peak(&plan.unsplit);
            plan.size = rules::line_size(table, plan.peak);
        }
        6 => {
            by_one(rng, &mut plan.peak);
            plan.size = rules::line_size(table, plan.peak);
        }
        7 => plan.cut = Cut { g: h, h: g, across },
        8 => (plan.cut.h, plan.cut.across) = (g, 0),
        _ => plan.size = rng.pick(&[0, 3, 12, 48, 192, 768, 1, 4, 16, 64, 256]),
    }
}
