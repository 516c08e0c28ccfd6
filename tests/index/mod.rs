//! Indexing a table, against lists found by looking through every line.

use crate::calls::growth::index_table;
use crate::model::growth::{indexed, Index};
use crate::model::solver::{refusal, table_result};
use crate::model::*;
use crate::random::Rng;
use crate::settle::{large, refusals::with_one_word};
use crate::tables;
use crate::tables::damage::{damaged, faults, sound, Call};
use crate::tables::examples::worked;
use crate::tables::limits::{limits, steps};
use crate::trial::{expect, Outcome, Test, Trial, Verdict};

pub const TESTS: &[Test] = &[
    Test { name: "indexing/worked", run: stated },
    Test { name: "indexing/random", run: |trial| made(trial, 8 * trial.count, tables::any) },
    Test { name: "indexing/large", run: |trial| made(trial, trial.count / 40, large) },
    Test { name: "indexing/limits", run: at_the_limits },
    Test { name: "indexing/refusals", run: refusals },
    Test { name: "indexing/one-word", run: one_word },
];

/// Columns of noise, as long as the index or a little off.
fn lent(rng: &mut Rng, table: &Table) -> Index {
    let right = Index::of(table);
    let mut length = |places: usize| {
        let spare = rng.index(4);
        let short = rng.index(2);
        match rng.below(8) {
            0 => places.saturating_sub(1 + short),
            1..=3 => places,
            _ => places + spare,
        }
    };
    let lengths = [length(right.pairs.len()), length(right.list.len())];
    Index { pairs: rng.noise(lengths[0]), list: rng.noise(lengths[1]) }
}

fn as_model_says(table: &Table, lent: &Index) -> Verdict {
    let (wanted, left) = indexed(table, lent);
    let (result, got) = index_table(table, lent)?;
    expect("indexing", result, wanted).map_err(|wrong| format!("{wrong}; {}", table.describe()))?;
    if got == left {
        return Ok(());
    }
    Err(format!("left {got:?}, wanted {left:?}; {}", table.describe()))
}

fn stated(_: &Trial) -> Outcome {
    let room = Index { pairs: vec![9; 11], list: vec![9; 6] };
    let (result, left) = index_table(&worked(), &room)?;
    expect("the worked table", result, 5)?;
    let wanted =
        Index { pairs: vec![0, 1, 1, 2, 3, 1, 4, 0, 4, 1, 9], list: vec![2, 2, 4, 4, 5, 9] };
    if left != wanted {
        return Err(format!("the worked table left {left:?}"));
    }
    for (pairs, list) in [(9, 5), (10, 4)] {
        let short = Index { pairs: vec![9; pairs], list: vec![9; list] };
        let (result, left) = index_table(&worked(), &short)?;
        expect("a short column", result, refusal(18, 0))?;
        if left != short {
            return Err("a short column was written".to_string());
        }
    }
    let nothing = Index { pairs: vec![], list: vec![] };
    as_model_says(&Table::new(0), &nothing)?;
    Ok(4)
}

fn made(trial: &Trial, cases: u64, make: impl Fn(&mut Rng) -> Table) -> Outcome {
    trial.cases(cases, |rng| {
        let table = make(rng);
        let room = lent(rng, &table);
        as_model_says(&table, &room)
    })
}

fn at_the_limits(trial: &Trial) -> Outcome {
    let mut rng = trial.rng();
    let mut tables: Vec<Table> = limits(&mut rng).into_iter().map(|(_, table)| table).collect();
    tables.extend(steps().into_iter().flat_map(|(sound, refused, _)| [sound, refused]));
    for table in &tables {
        // A table that is refused has no index to be measured by.
        let room = if table_result(table) == 0 {
            lent(&mut rng, table)
        } else {
            Index { pairs: rng.noise(8), list: rng.noise(8) }
        };
        as_model_says(table, &room)?;
    }
    Ok(tables.len() as u64)
}

/// Each fault of the table alone and in pairs; room is short in half of them.
fn refusals(trial: &Trial) -> Outcome {
    let of_table: Vec<_> = faults().into_iter().filter(|fault| fault.is_of_table()).collect();
    let mut rng = trial.rng();
    let call = sound(&mut rng);
    let mut cases = 0;
    for first in &of_table {
        for second in &of_table {
            let Call { table, .. } = damaged(&call, &[*first, *second]);
            let places = if rng.chance(50) { 0 } else { 4_000 };
            let room = Index { pairs: rng.noise(places), list: rng.noise(places) };
            as_model_says(&table, &room)?;
            cases += 1;
        }
    }
    Ok(cases)
}

fn one_word(trial: &Trial) -> Outcome {
    trial.cases(2 * trial.count, |rng| {
        let Call { table, .. } = with_one_word(rng);
        let places = if rng.chance(10) { 0 } else { 200 };
        let room = Index { pairs: rng.noise(places), list: rng.noise(places) };
        as_model_says(&table, &room)
    })
}
