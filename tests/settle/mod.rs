//! Settling accepted tables, compared with the solver and with the stated examples.

pub mod agreement;
pub mod entries;
pub mod refusals;

use crate::calls::{check_answers, check_table, settle};
use crate::model::solver::solve;
use crate::model::*;
use crate::random::Rng;
use crate::tables::examples::examples;
use crate::tables::limits::limits;
use crate::tables::{self, Shape};
use crate::trial::{expect, Outcome, Test, Trial, Verdict};

pub const TESTS: &[Test] = &[
    Test { name: "settle/examples", run: stated },
    Test { name: "settle/random", run: |trial| shaped(trial, &tables::MIXED) },
    Test { name: "settle/ties", run: |trial| shaped(trial, &tables::TIES) },
    Test { name: "settle/struck", run: |trial| shaped(trial, &tables::STRIKES) },
    Test { name: "settle/gaps", run: |trial| shaped(trial, &tables::GAPS) },
    Test { name: "settle/repeats", run: |trial| shaped(trial, &tables::REPEATS) },
    Test { name: "settle/tiny", run: |trial| shaped(trial, &tables::TINY) },
    Test { name: "settle/over", run: |trial| made(trial, trial.count, tables::over) },
    Test { name: "settle/ceiling", run: |trial| made(trial, trial.count, tables::ceiling) },
    Test { name: "settle/high", run: |trial| made(trial, trial.count / 20, tables::high) },
    Test { name: "settle/days-ceiling", run: days_ceiling },
    Test { name: "settle/grades", run: grades },
    Test { name: "settle/towers", run: |trial| made(trial, trial.count, tables::tower) },
    Test { name: "settle/chains", run: |trial| made(trial, trial.count / 20, short_or_long_chain) },
    Test { name: "settle/large", run: |trial| made(trial, trial.count / 50, large) },
    Test { name: "settle/limits", run: at_the_limits },
    Test { name: "settle/gaps-unread", run: gaps_unread },
    Test { name: "settle/struck-idle", run: struck_idle },
];

/// Holds if the library agrees with `wanted`: the table is accepted and settled to it over any
/// former content, and it is found right.
pub fn settles_to(measure: u64, table: &Table, wanted: &Labelling, rng: &mut Rng) -> Verdict {
    let mut verdict = || {
        expect("check_table", check_table(table)?, 0)?;
        let room = rng.labelling([table.n as usize; 4]);
        let (result, answers) = settle(measure, table, &room)?;
        expect("settle", result, 0)?;
        same("settle", &answers, wanted)?;
        expect("check_answers", check_answers(measure, table, wanted)?, 1)
    };
    verdict().map_err(|wrong| format!("{wrong}; measure {measure}, {}", table.describe()))
}

/// Compares label by label and tells the first vertex that differs.
pub fn same(what: &str, got: &Labelling, wanted: &Labelling) -> Verdict {
    if got == wanted {
        return Ok(());
    }
    let vertices = 0..wanted.weights.len() as u64;
    let differing = vertices.clone().find(|&vertex| got.label(vertex) != wanted.label(vertex));
    let vertex = differing.unwrap_or(vertices.end);
    let (got, wanted) = (got.label(vertex), wanted.label(vertex));
    Err(format!("{what}: vertex {vertex} is {got:?}, wanted {wanted:?}"))
}

pub fn agree(measure: u64, table: &Table, rng: &mut Rng) -> Verdict {
    settles_to(measure, table, &solve(measure, table), rng)
}

fn stated(trial: &Trial) -> Outcome {
    let mut cases = 0;
    for example in examples() {
        let wanted = Labelling::of(&example.labels);
        let solved = solve(example.measure, &example.table);
        same("the solver", &solved, &wanted)
            .and_then(|()| settles_to(example.measure, &example.table, &wanted, &mut trial.rng()))
            .map_err(|wrong| format!("{}: {wrong}", example.name))?;
        cases += 1;
    }
    Ok(cases)
}

fn shaped(trial: &Trial, shape: &Shape) -> Outcome {
    made(trial, trial.count, |rng| tables::random(rng, shape))
}

/// Each table in every measure.
fn made(trial: &Trial, cases: u64, make: impl Fn(&mut Rng) -> Table) -> Outcome {
    trial.cases(cases, |rng| {
        let table = make(rng);
        MEASURES.into_iter().try_for_each(|measure| agree(measure, &table, rng))
    })
}

/// In days 1,000 hyperedges of the greatest own weight, each of which needs the one before, come to
/// the ceiling, which is made; one more is over.
fn days_ceiling(trial: &Trial) -> Outcome {
    for length in [1_000, 1_001] {
        let before = |vertex: u64| vertex.checked_sub(1).into_iter().collect::<Vec<_>>();
        let edges: Vec<_> = (0..length).map(|vertex| (vertex, GREATEST, before(vertex))).collect();
        let label = |vertex: u64| {
            let weight = if vertex < 1_000 { (vertex + 1) * GREATEST } else { OVER };
            Label { weight, depth: vertex + 1, edge: vertex, pieces: 1 }
        };
        let labels: Vec<Label> = (0..length).map(label).collect();
        let (table, wanted) = (Table::of(length, &edges), Labelling::of(&labels));
        same("the solver", &solve(DAYS, &table), &wanted)?;
        settles_to(DAYS, &table, &wanted, &mut trial.rng())?;
    }
    Ok(2)
}

/// Tables of grades that tell little: many 0, 0 and the greatest alone, and one grade alone, so that
/// depth and hyperedge decide. And a circle of grade 0 beside a source of grade 0, which is no circle.
fn grades(trial: &Trial) -> Outcome {
    let owns: [fn(&mut Rng) -> u64; 4] = [
        |rng| rng.pick(&[0, 0, 0, 0, 1, 5, GREATEST]),
        |rng| rng.pick(&[0, GREATEST]),
        |_| 0,
        |_| GREATEST,
    ];
    for (edges, wanted) in [
        (vec![(0, 0, vec![1]), (1, 0, vec![0])], [(0, 0, 0, 0), (0, 0, 0, 0)]),
        (vec![(0, 0, vec![1]), (1, 0, vec![0]), (1, 0, vec![])], [(0, 2, 0, 1), (0, 1, 2, 1)]),
    ] {
        let label = |&(weight, depth, edge, pieces)| Label { weight, depth, edge, pieces };
        let wanted = Labelling::of(&wanted.iter().map(label).collect::<Vec<_>>());
        let table = Table::of(2, &edges);
        same("the solver", &solve(GRADE, &table), &wanted)?;
        settles_to(GRADE, &table, &wanted, &mut trial.rng())?;
    }
    trial.cases(trial.count, |rng| {
        let shape = Shape { own: rng.pick(&owns), ..rng.pick(&tables::SHAPES) };
        agree(GRADE, &tables::random(rng, &shape), rng)
    })
}

pub fn short_or_long_chain(rng: &mut Rng) -> Table {
    let longest = rng.pick(&[3, 40, 300, MOST_VERTICES]);
    let length = rng.between(longest / 2 + 1, longest);
    let extra = rng.pick(&[0, 5, length]);
    let own = rng.pick::<fn(&mut Rng) -> u64>(&[
        tables::low_own,
        tables::small_own,
        tables::high_own,
        tables::any_own,
    ]);
    tables::chain(rng, length, extra, own)
}

pub fn large(rng: &mut Rng) -> Table {
    let shape = rng.pick(&tables::SHAPES);
    let shape = Shape { vertices: (100, MOST_VERTICES), edges: (200, 3_000), longest: 6, ..shape };
    let mut table = tables::random(rng, &Shape { gaps: 5, ..shape });
    // Far fewer places than the limit are in use; behind them is gap.
    let spare = MOST_TAILS - table.tails.len();
    let behind = rng.index(spare + 1);
    table.tails.extend(rng.noise(behind));
    table
}

fn at_the_limits(trial: &Trial) -> Outcome {
    let mut rng = trial.rng();
    let mut cases = 0;
    for (name, table) in limits(&mut rng) {
        for measure in MEASURES {
            agree(measure, &table, &mut rng).map_err(|wrong| format!("{name}: {wrong}"))?;
            cases += 1;
        }
    }
    Ok(cases)
}

/// The same hyperedges with other gaps, or none, settle to the same answers.
fn gaps_unread(trial: &Trial) -> Outcome {
    trial.cases(trial.count, |rng| {
        let table = tables::random(rng, &tables::GAPS);
        let mut closed = Table::new(table.n);
        let mut refilled = Table::new(table.n);
        for edge in 0..table.edges() {
            let (head, own, tail) = (table.heads[edge], table.own[edge], table.tail(edge));
            let mark = table.strikes[edge];
            closed.push_marked(head, own, mark, tail);
            refilled.push_after(&tables::gap(rng, 90), head, own, mark, tail);
        }
        let measure = rng.pick(&MEASURES);
        let wanted = solve(measure, &closed);
        settles_to(measure, &closed, &wanted, rng)?;
        settles_to(measure, &table, &wanted, rng)?;
        settles_to(measure, &refilled, &wanted, rng)
    })
}

/// The answers do not depend on the own weights of struck hyperedges.
fn struck_idle(trial: &Trial) -> Outcome {
    trial.cases(trial.count, |rng| {
        let mut table = tables::random(rng, &tables::STRIKES);
        let measure = rng.pick(&MEASURES);
        let wanted = solve(measure, &table);
        for edge in (0..table.edges()).filter(|&edge| table.strikes[edge] == STRUCK) {
            table.own[edge] = rng.pick(&[0, 1, GREATEST]);
        }
        settles_to(measure, &table, &wanted, rng)
    })
}
