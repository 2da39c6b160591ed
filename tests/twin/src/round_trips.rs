//! The way there and back, on what answers the calls and nothing else.
//! Matrix to table to matrix gives the same bytes; table to matrix to table gives
//! the same table where it has at most one row per pair and no row of amount 0.

use crate::compare::{shown, written};
use crate::gen::{self, Amounts};
use crate::kit::Kit;
use crate::matrices;
use crate::matrix::matrix_text;
use crate::rng::Rng;
use crate::selfcheck::Outcome;
use crate::sheet::table_text;
use crate::table::Table;
use crate::twin::Call;

const CASES: u64 = 600;

/// The text through both calls is the text, and what stands between them is
/// written afresh as it is where it is a table.
fn there_and_back(kit: Kit, text: &[u8], there: Call, back: Call) -> Outcome {
    let between = written(kit, there, text)?;
    if matches!(there, Call::ReadMatrix(..)) && written(kit, Call::Rewrite, &between)? != between {
        return Err(format!("another table:\n{}", shown(&between, 40)));
    }
    if written(kit, back, &between)? != text {
        return Err(format!("another text:\n{}", shown(text, 40)));
    }
    Ok(())
}

/// A table with one row a pair at most and no row of 0; every fourth is full.
fn table(rng: &mut Rng, case: u64) -> Table {
    let n = rng.between(2, 64);
    let mut table = match case % 8 {
        0 => gen::full(rng, 20, Amounts::UpTo(9_999)),
        4 => gen::full(rng, 64, Amounts::Ends),
        _ => gen::any(rng, n),
    };
    table.rows.retain(|row| row.amount > 0);
    table
}

pub fn of_tables(kit: Kit, seed: u64) -> Outcome {
    for case in 0..CASES {
        let table = table(&mut Rng::for_case(seed, 2_000, case), case);
        // Read with the table's own fibres and family, as a matrix says neither.
        let read = Call::ReadMatrix(table.fibres as u32, table.family.number());
        there_and_back(kit, &table_text(&table), Call::WriteMatrix, read)?;
    }
    Ok(())
}

pub fn of_matrices(kit: Kit, seed: u64) -> Outcome {
    for case in 0..CASES {
        let table = table(&mut Rng::for_case(seed, 2_001, case), case);
        let text = matrix_text(&matrices::square(&table));
        let read = Call::ReadMatrix(table.fibres as u32, table.family.number());
        there_and_back(kit, &text, read, Call::WriteMatrix)?;
    }
    Ok(())
}
