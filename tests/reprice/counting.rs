//! The solver's counter, on which the bounds of a rise rest: compared with derivations listed
//! outright, and where its type can't hold a count.

use crate::model::solver::{counts, solve};
use crate::model::*;
use crate::reprice::changes::priced;
use crate::tables;
use crate::tables::damage::Call;
use crate::tables::examples::worked;
use crate::trial::{expect, Outcome, Test, Trial, Verdict};

pub const TESTS: &[Test] = &[
    Test { name: "counting/stated", run: stated },
    Test { name: "counting/listed", run: listed },
    Test { name: "counting/high-counts", run: high_counts },
];

/// Longer lists than this are cut off, and not compared.
const LONGEST_LIST: usize = 3_000;

/// The hyperedges of a vertex's chosen derivation, root first.
fn list(call: &Call, vertex: u64, listed: &mut Vec<u64>) {
    if listed.len() <= LONGEST_LIST {
        let edge = call.answers.label(vertex).edge;
        listed.push(edge);
        call.table.tail(edge as usize).iter().for_each(|&needed| list(call, needed, listed));
    }
}

/// P2: the hyperedges of vertex 3 in the worked table.
fn stated(_: &Trial) -> Outcome {
    let call = Call::solved(COST, worked());
    let mut listed = Vec::new();
    list(&call, 3, &mut listed);
    if listed != [4, 2, 0, 1, 1, 1] {
        return Err(format!("P2: {listed:?}"));
    }
    for (edge, wanted) in [1, 3, 1, 0, 1, 0].into_iter().enumerate() {
        let counted = counts(&call.table, &call.answers, edge)[3];
        expect("the count", counted as u64, wanted)?;
    }
    alike(&call, 3, &listed).map(|()| 1)
}

/// The greatest sum of own weights along a path of a vertex's chosen derivation.
fn longest(call: &Call, vertex: u64) -> u64 {
    let edge = call.answers.label(vertex).edge as usize;
    let below = call.table.tail(edge).iter().map(|&needed| longest(call, needed));
    call.table.own[edge] + below.max().unwrap_or(0)
}

/// The counter agrees with the derivation listed outright, whose weight is the vertex's.
fn alike(call: &Call, vertex: u64, listed: &[u64]) -> Verdict {
    for edge in 0..call.table.edges() {
        let number = listed.iter().filter(|&&one| one == edge as u64).count();
        let counted = counts(&call.table, &call.answers, edge)[vertex as usize];
        if counted != number as u128 {
            return Err(format!("edge {edge} is counted {counted} times, listed {number}"));
        }
    }
    let own = listed.iter().map(|&edge| call.table.own[edge as usize]);
    let weight = match call.measure {
        COST => own.sum(),
        DAYS => longest(call, vertex),
        _ => own.min().unwrap_or(0),
    };
    expect("the listed weight", weight.min(OVER), call.answers.label(vertex).weight)
}

fn listed(trial: &Trial) -> Outcome {
    let mut compared = 0;
    trial.cases(trial.count / 4, |rng| {
        let measure = rng.pick(&MEASURES);
        let call = priced(rng, measure, tables::any);
        for vertex in (0..call.table.n).filter(|&vertex| call.answers.label(vertex).depth > 0) {
            let mut listed = Vec::new();
            list(&call, vertex, &mut listed);
            if listed.len() <= LONGEST_LIST {
                alike(&call, vertex, &listed).map_err(|wrong| {
                    format!("vertex {vertex}, {wrong}; {}", call.table.describe())
                })?;
                compared += 1;
            }
        }
        Ok(())
    })?;
    Ok(compared)
}

/// Doubled from level to level: exact as long as the type can hold it, then its greatest number.
fn high_counts(_: &Trial) -> Outcome {
    let levels = 300;
    let mut table = Table::new(levels);
    table.push(0, 0, &[]);
    (1..levels).for_each(|level| table.push(level, 0, &[level - 1; 2]));
    let counts = counts(&table, &solve(COST, &table), 0);
    for (level, &count) in counts.iter().enumerate() {
        let wanted = if level < 128 { 1 << level } else { u128::MAX };
        if count != wanted {
            return Err(format!("level {level} is counted {count}, wanted {wanted}"));
        }
    }
    Ok(levels)
}
