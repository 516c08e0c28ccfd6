//! Settling tables in topological order, compared with the solver and with `settle`.

pub mod refusals;

use crate::calls::ordered::{check_order, settle_ordered};
use crate::calls::settle;
use crate::model::solver::{refusal, solve};
use crate::model::*;
use crate::random::Rng;
use crate::settle::same;
use crate::tables::examples::{circle, worked};
use crate::tables::limits::limits;
use crate::tables::{self, Shape};
use crate::trial::{expect, Outcome, Test, Trial, Verdict};

pub const TESTS: &[Test] = &[
    Test { name: "ordered/stated", run: stated },
    Test { name: "ordered/any", run: |trial| made(trial, 2 * trial.count, tables::any) },
    Test { name: "ordered/ties", run: |trial| shaped(trial, &tables::TIES) },
    Test { name: "ordered/struck", run: |trial| shaped(trial, &tables::STRIKES) },
    Test { name: "ordered/gaps", run: |trial| shaped(trial, &tables::GAPS) },
    Test { name: "ordered/repeats", run: |trial| shaped(trial, &tables::REPEATS) },
    Test { name: "ordered/over", run: |trial| made(trial, trial.count, tables::over) },
    Test { name: "ordered/high", run: |trial| made(trial, trial.count / 20, tables::high) },
    Test { name: "ordered/chains", run: |trial| made(trial, trial.count / 20, shuffled_chain) },
    Test { name: "ordered/limits", run: at_the_limits },
];

/// The table with every listed vertex brought below its head; of vertex 0 nothing is listed.
pub fn in_order(table: &Table) -> Table {
    let mut table = table.clone();
    for edge in 0..table.edges() {
        let head = table.heads[edge];
        if head == 0 {
            table.spans[2 * edge + 1] = 0;
        }
        let offset = table.spans[2 * edge] as usize;
        let length = table.spans[2 * edge + 1] as usize;
        for vertex in &mut table.tails[offset..offset + length] {
            *vertex %= head;
        }
    }
    table
}

/// Holds if the table is accepted, and settled over any former content to the solver's answers, byte
/// for byte those of `settle`.
fn settles(measure: u64, table: &Table, rng: &mut Rng) -> Verdict {
    let mut verdict = || {
        expect("check_order", check_order(table)?, 0)?;
        let room = rng.labelling([table.n as usize; 4]);
        let (result, answers) = settle_ordered(measure, table, &room)?;
        expect("settle_ordered", result, 0)?;
        same("settle_ordered", &answers, &solve(measure, table))?;
        let (result, settled) = settle(measure, table, &room)?;
        expect("settle", result, 0)?;
        same("settle_ordered beside settle", &answers, &settled)
    };
    verdict().map_err(|wrong| format!("{wrong}; measure {measure}, {}", table.describe()))
}

fn in_all_measures(table: &Table, rng: &mut Rng) -> Verdict {
    MEASURES.iter().try_for_each(|&measure| settles(measure, table, rng))
}

fn made(trial: &Trial, cases: u64, table: fn(&mut Rng) -> Table) -> Outcome {
    trial.cases(cases, |rng| {
        let table = in_order(&table(rng));
        in_all_measures(&table, rng)
    })
}

fn shaped(trial: &Trial, shape: &Shape) -> Outcome {
    trial.cases(trial.count, |rng| {
        let table = in_order(&tables::random(rng, shape));
        in_all_measures(&table, rng)
    })
}

/// A chain whose hyperedges stand in any order.
fn shuffled_chain(rng: &mut Rng) -> Table {
    let length = rng.pick(&[2, 30, MOST_VERTICES]);
    let mut edges = vec![(0, 1, vec![])];
    edges.extend((1..length).map(|vertex| (vertex, vertex % 3, vec![vertex - 1])));
    edges.extend((1..length).map(|vertex| (vertex, 2, vec![vertex - 1, vertex / 2])));
    rng.shuffle(&mut edges);
    Table::of(length, &edges)
}

/// The worked table is refused at its last line, which lists its head; without it, it is settled. A
/// circle is refused at its first line.
fn stated(trial: &Trial) -> Outcome {
    let mut rng = trial.rng();
    let mut table = worked();
    let room = Labelling::unmade(table.n);
    expect("check_order", check_order(&table)?, refusal(24, 5))?;
    expect("settle_ordered", settle_ordered(COST, &table, &room)?.0, refusal(24, 5))?;
    table.heads.pop();
    table.own.pop();
    table.strikes.pop();
    table.spans.truncate(10);
    in_all_measures(&table, &mut rng)?;
    let (_, answers) = settle_ordered(COST, &table, &room)?;
    let wanted = Labelling {
        weights: vec![1_200, 300, 2_000, 2_600, 0],
        depths: vec![1, 1, 2, 3, 0],
        edges: vec![0, 1, 2, 4, 0],
        pieces: vec![1, 1, 2, 4, 0],
    };
    same("the worked table without its last line", &answers, &wanted)?;
    expect("check_order of a circle", check_order(&circle())?, refusal(24, 0))?;
    Ok(3)
}

/// Tables at the limits, brought in order; and 4,096 lines of the last vertex.
fn at_the_limits(trial: &Trial) -> Outcome {
    let mut rng = trial.rng();
    let mut tables: Vec<Table> =
        limits(&mut rng).iter().map(|(_, table)| in_order(table)).collect();
    let mut last = Table::new(MOST_VERTICES);
    last.push(0, 5, &[]);
    for edge in 1..MOST_EDGES as u64 {
        last.push(MOST_VERTICES - 1, (edge * 7) % 1_000, &[0, 0, 0]);
    }
    tables.push(last);
    tables.push(Table::new(0));
    for table in &tables {
        in_all_measures(table, &mut rng)?;
    }
    Ok(tables.len() as u64)
}
