//! Checking answers: yes for the ones that are defined, no for all others, whatever they hold.

pub mod counts;
pub mod near;
pub mod stale;
pub mod values;

use crate::calls::check_answers;
use crate::model::solver::solve;
use crate::model::trees::{small_edges, small_table};
use crate::model::*;
use crate::tables;
use crate::tables::examples::examples;
use crate::tables::limits::limits;
use crate::trial::{expect, Outcome, Test, Trial, Verdict};

pub const TESTS: &[Test] = &[
    Test { name: "answers/right", run: right },
    Test { name: "answers/one-place-examples", run: one_place_examples },
    Test { name: "answers/one-place", run: one_place },
    Test { name: "answers/one-place-limits", run: one_place_limits },
    Test { name: "answers/exchanged", run: exchanged },
    Test { name: "answers/any-numbers", run: any_numbers },
    Test { name: "answers/all-of-two-vertices", run: all_small },
];

/// Yes exactly if `lent` is the right labelling.
pub fn judged(measure: u64, table: &Table, right: &Labelling, lent: &Labelling) -> Verdict {
    let result = check_answers(measure, table, lent);
    result.and_then(|result| expect("check_answers", result, u64::from(lent == right))).map_err(
        |wrong| {
            let (lent, table) = (lent.describe(), table.describe());
            format!("{wrong}; measure {measure}, {lent}, {table}")
        },
    )
}

fn right(trial: &Trial) -> Outcome {
    trial.cases(trial.count, |rng| {
        let table = tables::any(rng);
        let measure = rng.pick(&MEASURES);
        let answers = solve(measure, &table);
        judged(measure, &table, &answers, &answers)
    })
}

/// Other numbers for a place that holds `value`: near it, at the marks, and equal to it in a
/// narrower type.
fn other_numbers(value: u64) -> Vec<u64> {
    let mut numbers = vec![
        value.wrapping_add(1),
        value.wrapping_sub(1),
        0,
        u64::MAX,
        CEILING,
        OVER,
        OVER + 1,
        value ^ (1 << 8),
        value ^ (1 << 16),
        value ^ (1 << 32),
        value ^ (1 << 63),
    ];
    numbers.retain(|&number| number != value);
    numbers
}

/// Every other number at one place; how many were tried.
fn change_place(
    measure: u64,
    table: &Table,
    right: &Labelling,
    column: usize,
    vertex: usize,
) -> Outcome {
    let mut lent = right.clone();
    let value = lent.columns_mut()[column][vertex];
    let numbers = other_numbers(value);
    for &number in &numbers {
        lent.columns_mut()[column][vertex] = number;
        judged(measure, table, right, &lent)?;
    }
    Ok(numbers.len() as u64)
}

fn change_each_place(measure: u64, table: &Table) -> Outcome {
    let right = solve(measure, table);
    let mut tried = 0;
    for column in 0..4 {
        for vertex in 0..table.n as usize {
            tried += change_place(measure, table, &right, column, vertex)?;
        }
    }
    Ok(tried)
}

fn one_place_examples(_: &Trial) -> Outcome {
    let mut tried = 0;
    for example in examples() {
        tried += change_each_place(example.measure, &example.table)?;
    }
    Ok(tried)
}

fn one_place(trial: &Trial) -> Outcome {
    trial.cases(trial.count / 2, |rng| {
        let table = tables::any(rng);
        change_each_place(rng.pick(&MEASURES), &table).map(|_| ())
    })
}

/// A few places of each of the largest tables.
fn one_place_limits(trial: &Trial) -> Outcome {
    let mut rng = trial.rng();
    let mut tried = 0;
    for (name, table) in limits(&mut rng).into_iter().filter(|(_, table)| table.n > 0) {
        let measure = rng.pick(&MEASURES);
        let right = solve(measure, &table);
        for _ in 0..2 {
            let (column, vertex) = (rng.index(4), rng.index(table.n as usize));
            tried += change_place(measure, &table, &right, column, vertex)
                .map_err(|wrong| format!("{name}: {wrong}"))?;
        }
    }
    Ok(tried)
}

/// Two vertices' places exchanged in a column or in all, and two columns exchanged.
fn exchanged(trial: &Trial) -> Outcome {
    trial.cases(trial.count, |rng| {
        let table = tables::any(rng);
        let measure = rng.pick(&MEASURES);
        let right = solve(measure, &table);
        for first in 0..table.n as usize {
            let second = rng.index(table.n as usize);
            let mut all = right.clone();
            for column in 0..4 {
                let mut one = right.clone();
                one.columns_mut()[column].swap(first, second);
                judged(measure, &table, &right, &one)?;
                all.columns_mut()[column].swap(first, second);
            }
            judged(measure, &table, &right, &all)?;
        }
        let Labelling { weights, depths, edges, pieces } = right.clone();
        let turned = Labelling { weights: depths, depths: edges, edges: pieces, pieces: weights };
        judged(measure, &table, &right, &turned)
    })
}

fn any_numbers(trial: &Trial) -> Outcome {
    trial.cases(trial.count, |rng| {
        let table = tables::any(rng);
        let measure = rng.pick(&MEASURES);
        let right = solve(measure, &table);
        let mut lent = right.clone();
        let share = rng.pick(&[3, 30, 100]);
        for column in lent.columns_mut() {
            for place in column.iter_mut() {
                if rng.chance(share) {
                    *place = rng.any();
                }
            }
        }
        judged(measure, &table, &right, &lent)
    })
}

/// Every table of two small hyperedges with every labelling of low numbers: one yes at most.
fn all_small(_: &Trial) -> Outcome {
    let kinds = small_edges();
    let mut tried = 0;
    for number in 0..kinds.len().pow(2) {
        let table = small_table(&kinds, 2, number);
        for measure in MEASURES {
            let right = solve(measure, &table);
            for digits in 0..3u64.pow(6) {
                let digit = |place: u32| digits / 3u64.pow(place) % 3;
                let [weights, depths, edges] = [0, 2, 4].map(|at| vec![digit(at), digit(at + 1)]);
                let pieces = right.pieces.clone();
                judged(measure, &table, &right, &Labelling { weights, depths, edges, pieces })?;
                tried += 1;
            }
        }
    }
    Ok(tried)
}
