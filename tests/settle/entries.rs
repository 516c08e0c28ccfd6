//! Reading one vertex's entry out of answer columns.

use crate::calls::entry;
use crate::model::solver::solve;
use crate::model::*;
use crate::random::Rng;
use crate::tables;
use crate::tables::examples::examples;
use crate::trial::{expect, Outcome, Test, Trial, Verdict};

pub const TESTS: &[Test] = &[
    Test { name: "entry/examples", run: stated },
    Test { name: "entry/settled", run: settled },
    Test { name: "entry/lent", run: lent },
    Test { name: "entry/beyond", run: beyond },
    Test { name: "entry/room", run: room },
];

const MADE: u64 = 0;
const PAST_CEILING: u64 = 1;
const NOT_MADE: u64 = 2;

fn state(label: Label) -> u64 {
    match (label.depth, label.weight) {
        (0, _) => NOT_MADE,
        (_, OVER) => PAST_CEILING,
        _ => MADE,
    }
}

/// The entry in a room of `places`: written if there are exactly 4.
fn reads(answers: &Labelling, vertex: u64, places: usize, rng: &mut Rng) -> Verdict {
    let label = answers.label(vertex);
    let room = rng.noise(places);
    let numbers = vec![label.weight, label.depth, label.edge, label.pieces];
    let wanted = if places == 4 { numbers } else { room.clone() };
    let verdict = entry(answers, vertex, &room).and_then(|(found, written)| {
        expect("entry", found, state(label))?;
        let differing = format!("entry wrote {written:?}, wanted {wanted:?}");
        if written == wanted {
            Ok(())
        } else {
            Err(differing)
        }
    });
    verdict.map_err(|wrong| format!("{wrong}; vertex {vertex}, {}", answers.describe()))
}

/// The states of the specification's examples, as it states them.
fn stated(trial: &Trial) -> Outcome {
    let mut cases = 0;
    for example in examples() {
        let answers = Labelling::of(&example.labels);
        for (vertex, label) in example.labels.iter().enumerate() {
            let wanted = match (example.name, vertex) {
                ("P8", 3) => PAST_CEILING,
                _ if *label == UNMADE => NOT_MADE,
                _ => MADE,
            };
            let verdict = expect("the state", state(*label), wanted);
            verdict
                .and_then(|()| reads(&answers, vertex as u64, 4, &mut trial.rng()))
                .map_err(|wrong| format!("{}: {wrong}", example.name))?;
            cases += 1;
        }
    }
    Ok(cases)
}

fn settled(trial: &Trial) -> Outcome {
    trial.cases(trial.count, |rng| {
        let table = tables::any(rng);
        let answers = solve(rng.pick(&MEASURES), &table);
        (0..table.n).try_for_each(|vertex| reads(&answers, vertex, 4, rng))
    })
}

/// Lent columns may hold anything: the numbers stay as lent, and only the marks decide the state.
fn lent(trial: &Trial) -> Outcome {
    trial.cases(trial.count, |rng| {
        let length = 1 + rng.index(5);
        let mut answers = rng.labelling([length; 4]);
        let vertex = rng.index(length);
        answers.weights[vertex] = rng.pick(&[0, 1, CEILING, OVER, OVER + 1, u64::MAX, OVER << 8]);
        answers.depths[vertex] = rng.pick(&[0, 0, 1, 256, 1 << 32, 1 << 63, u64::MAX]);
        reads(&answers, vertex as u64, 4, rng)
    })
}

/// Columns of different lengths, and vertices beyond some or all of them.
fn beyond(trial: &Trial) -> Outcome {
    trial.cases(trial.count, |rng| {
        let lengths = [(); 4].map(|()| rng.index(6));
        let answers = rng.labelling(lengths);
        for vertex in 0..8 {
            reads(&answers, vertex, 4, rng)?;
        }
        let far = rng.pick(&[1 << 32, 1 << 61, (1 << 61) + 1, 1 << 63, u64::MAX]);
        reads(&answers, far, 4, rng)
    })
}

fn room(trial: &Trial) -> Outcome {
    trial.cases(trial.count, |rng| {
        let length = 1 + rng.index(5);
        let answers = rng.labelling([length; 4]);
        (0..8).try_for_each(|places| reads(&answers, rng.below(7), places, rng))
    })
}
