//! Answers that hold in most places or elsewhere: of the other measure, of another table, resting
//! on a circle, or chosen by another rule. Each must be told from the right ones.

use crate::answers::judged;
use crate::model::solver::{solve, tight_edges, weight_by};
use crate::model::*;
use crate::random::Rng;
use crate::tables;
use crate::tables::examples::circle;
use crate::trial::{Outcome, Test, Trial};

pub const TESTS: &[Test] = &[
    Test { name: "answers/other-measure", run: other_measure },
    Test { name: "answers/other-table", run: other_table },
    Test { name: "answers/zero-circle", run: zero_circle },
    Test { name: "answers/circles", run: circles },
    Test { name: "answers/unfounded", run: unfounded },
    Test { name: "answers/edge-before-depth", run: edge_before_depth },
];

/// Tries the labelling that `make` gives for each table; some must be wrong, so a low count is
/// raised to where they are.
fn tried_wrong(
    trial: &Trial,
    make: impl Fn(u64, &Table, &Labelling, &mut Rng) -> Labelling,
) -> Outcome {
    let mut wrong = 0;
    trial.cases(trial.count.max(200), |rng| {
        let table = tables::any(rng);
        let measure = rng.pick(&MEASURES);
        let right = solve(measure, &table);
        let lent = make(measure, &table, &right, rng);
        wrong += u64::from(lent != right);
        judged(measure, &table, &right, &lent)
    })?;
    Ok(wrong)
}

fn other_measure(trial: &Trial) -> Outcome {
    tried_wrong(trial, |measure, table, _, _| solve((measure + 1) % 3, table))
}

/// The answers of a table with one hyperedge struck or restored, repriced or turned: right somewhere,
/// not here.
fn other_table(trial: &Trial) -> Outcome {
    tried_wrong(trial, |measure, table, right, rng| {
        let mut other = table.clone();
        if other.edges() == 0 {
            return right.clone();
        }
        let edge = rng.index(other.edges());
        match rng.below(4) {
            0 => other.strikes[edge] ^= STRUCK,
            1 => other.own[edge] = 0,
            2 => other.own[edge] = tables::any_own(rng),
            _ => other.heads[edge] = rng.below(other.n),
        }
        solve(measure, &other)
    })
}

/// Two vertices at 0 that rest on one another only, at any depths.
fn zero_circle(_: &Trial) -> Outcome {
    let mut tried = 0;
    for measure in MEASURES {
        let right = Labelling::unmade(2);
        for weight in [0, 1, CEILING, OVER, u64::MAX] {
            for depth in [(1, 1), (1, 2), (2, 1), (2, 3), (0, 1), (u64::MAX, 0), (u64::MAX, 1)] {
                let first = Label { weight, depth: depth.0, edge: 0, pieces: 1 };
                let second = Label { weight, depth: depth.1, edge: 1, pieces: 1 };
                judged(measure, &circle(), &right, &Labelling::of(&[first, second]))?;
                tried += 1;
            }
        }
    }
    Ok(tried)
}

/// Longer circles at no cost, where one vertex may have a source too, dearer than they claim.
fn circles(trial: &Trial) -> Outcome {
    trial.cases(trial.count, |rng| {
        let n = rng.between(1, 12);
        let mut table = Table::new(n);
        for vertex in 0..n {
            table.push(vertex, 0, &[(vertex + 1) % n]);
        }
        if rng.chance(50) {
            table.push(rng.below(n), rng.between(1, 9), &[]);
        }
        let measure = rng.pick(&MEASURES);
        let right = solve(measure, &table);
        let start = rng.below(n);
        let weight = rng.pick(&[0, 0, 1, OVER]);
        for deepest in [n, n + 1, u64::MAX] {
            // Falls along the circle as in a chain, and jumps up once.
            let depth = |vertex| deepest.wrapping_sub((vertex + n - start) % n);
            let label = |vertex| Label { weight, depth: depth(vertex), edge: vertex, pieces: 1 };
            let labels: Vec<Label> = (0..n).map(label).collect();
            judged(measure, &table, &right, &Labelling::of(&labels))?;
        }
        Ok(())
    })
}

/// Weights that satisfy every hyperedge but come from below, so that circles may carry themselves.
fn unfounded(trial: &Trial) -> Outcome {
    tried_wrong(trial, |measure, table, right, rng| {
        let mut weights: Vec<Option<u64>> = vec![Some(0); table.n as usize];
        for _ in 0..rng.between(1, 40) {
            let mut next: Vec<Option<u64>> = vec![None; table.n as usize];
            for edge in (0..table.edges()).filter(|&edge| table.is_live(edge)) {
                let head = table.heads[edge] as usize;
                let weight = weight_by(measure, table, edge, &weights);
                let known = [next[head], weight];
                next[head] = known.into_iter().flatten().min();
            }
            weights = next;
        }
        let mut lent = Labelling::unmade(table.n);
        for edge in tight_edges(measure, table, &weights).into_iter().rev() {
            let head = table.heads[edge] as usize;
            let depth = [right.depths[head], 1 + rng.below(table.n)][rng.index(2)].max(1);
            let weight = weights[head].unwrap_or(0);
            lent.set(head, Label { weight, depth, edge: edge as u64, pieces: right.pieces[head] });
        }
        lent
    })
}

/// The lowest tight hyperedge whatever its depth, with the depth that it then has.
fn edge_before_depth(trial: &Trial) -> Outcome {
    tried_wrong(trial, |measure, table, right, _| {
        let mut lent = right.clone();
        let is_made = |vertex: &usize| right.depths[*vertex] > 0;
        let mut weights = vec![None; table.n as usize];
        for vertex in (0..weights.len()).filter(is_made) {
            weights[vertex] = Some(right.weights[vertex]);
        }
        for edge in tight_edges(measure, table, &weights).into_iter().rev() {
            let tail = table.tail(edge).iter();
            let deepest = tail.map(|&vertex| right.depths[vertex as usize]).max().unwrap_or(0);
            let head = table.heads[edge] as usize;
            let weight = right.weights[head];
            lent.set(
                head,
                Label { weight, depth: deepest + 1, edge: edge as u64, pieces: right.pieces[head] },
            );
        }
        lent
    })
}
