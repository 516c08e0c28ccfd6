//! Answers that try the value of a line: the number that stands for none as a figure, figures above
//! the mark, and the largest table of wide lines.

use crate::answers::judged;
use crate::model::solver::solve;
use crate::model::*;
use crate::tables;
use crate::trial::{Outcome, Test, Trial};

pub const TESTS: &[Test] = &[
    Test { name: "answers/none-as-figure", run: none_as_figure },
    Test { name: "answers/above-the-mark", run: above_the_mark },
    Test { name: "answers/largest-wide", run: largest_wide },
];

/// A part whose named line has no value, since it is struck or lists an unmade part, with the number
/// of none as its figure; and a line that there is not.
fn none_as_figure(_: &Trial) -> Outcome {
    let mut table = Table::new(3);
    table.push_marked(0, 5, STRUCK, &[]);
    table.push(1, 5, &[2]);
    let mut tried = 0;
    for measure in MEASURES {
        let right = solve(measure, &table);
        for vertex in 0..2 {
            for depth in [0, 1, 2, 3, 4, 1 << 16, u64::MAX] {
                for edge in [vertex, 1 - vertex, 2, u64::MAX] {
                    let mut lent = right.clone();
                    let pieces = right.pieces[vertex as usize];
                    lent.set(vertex as usize, Label { weight: u64::MAX, depth, edge, pieces });
                    judged(measure, &table, &right, &lent)?;
                    tried += 1;
                }
            }
        }
    }
    Ok(tried)
}

/// The same figure above the mark in every part, or in every part that is made.
fn above_the_mark(trial: &Trial) -> Outcome {
    trial.cases(trial.count, |rng| {
        let table = tables::any(rng);
        let measure = rng.pick(&MEASURES);
        let right = solve(measure, &table);
        for figure in [OVER + 1, 1 << 63, u64::MAX - 1, u64::MAX] {
            let mut made = right.clone();
            for vertex in (0..table.n as usize).filter(|&vertex| right.depths[vertex] > 0) {
                made.weights[vertex] = figure;
            }
            judged(measure, &table, &right, &made)?;
            let weights = vec![figure; table.n as usize];
            judged(measure, &table, &right, &Labelling { weights, ..right.clone() })?;
        }
        Ok(())
    })
}

/// As many lines and parts as a table may have, and 1,008 lines as long as one may be: right, and wrong in one place of each
/// column, for the first and the last part.
fn largest_wide(_: &Trial) -> Outcome {
    let mut table = Table::new(MOST_VERTICES);
    for vertex in 0..MOST_VERTICES {
        let before: Vec<u64> = (vertex.max(16) - 16..vertex).collect();
        table.push(vertex, vertex, &before);
    }
    for line in MOST_VERTICES..MOST_EDGES as u64 {
        table.push(line % MOST_VERTICES, GREATEST, &[]);
    }
    let mut tried = 0;
    for measure in MEASURES {
        let right = solve(measure, &table);
        judged(measure, &table, &right, &right)?;
        for column in 0..4 {
            for vertex in [0, MOST_VERTICES as usize - 1] {
                let mut lent = right.clone();
                lent.columns_mut()[column][vertex] += 1;
                judged(measure, &table, &right, &lent)?;
                tried += 1;
            }
        }
    }
    Ok(tried)
}
