//! What is turned away: number and place, the order among several faults, and that nothing lent is
//! altered, which the wrappers see to.

use crate::calls::{check_answers, check_table, settle};
use crate::model::solver::{call_result, refusal, solve, table_result};
use crate::model::*;
use crate::random::Rng;
use crate::settle::same;
use crate::tables;
use crate::tables::damage::{damaged, faults, reported, sound, Call, Fault};
use crate::tables::examples::worked;
use crate::tables::limits::steps;
use crate::trial::{expect, Outcome, Test, Trial, Verdict};

pub const TESTS: &[Test] = &[
    Test { name: "refusals/stated", run: stated },
    Test { name: "refusals/each", run: each },
    Test { name: "refusals/pairs", run: pairs },
    Test { name: "refusals/many", run: many },
    Test { name: "refusals/struck", run: struck },
    Test { name: "refusals/marks", run: marks },
    Test { name: "refusals/limits", run: at_the_limits },
    Test { name: "refusals/answer-lengths", run: answer_lengths },
    Test { name: "refusals/one-word", run: one_word },
    Test { name: "refusals/noise", run: noise },
];

/// Holds if the calls return `of_table` where the table alone is given and `of_call` elsewhere;
/// what is accepted is settled and judged too. Settling gets a room of noise: any write shows.
fn returns(call: &Call, of_table: u64, of_call: u64, rng: &mut Rng) -> Verdict {
    let Call { measure, table, answers } = call;
    let mut verdict = || {
        expect("check_table", check_table(table)?, of_table)?;
        let room = rng.labelling(answers.lengths());
        let (result, settled) = settle(*measure, table, &room)?;
        expect("settle", result, of_call)?;
        let checked = check_answers(*measure, table, answers)?;
        if of_call != 0 {
            return expect("check_answers", checked, of_call);
        }
        let right = solve(*measure, table);
        same("settle", &settled, &right)?;
        expect("check_answers", checked, u64::from(*answers == right))
    };
    verdict().map_err(|wrong| {
        let (answers, table) = (answers.describe(), table.describe());
        format!("{wrong}; measure {measure}, {answers}, {table}")
    })
}

fn as_solver_says(call: &Call, rng: &mut Rng) -> Verdict {
    let of_call = call_result(call.measure, &call.table, &call.answers);
    returns(call, table_result(&call.table), of_call, rng)
}

/// The faults' own order decides; the solver must say the same, or one of the two is wrong.
fn refused(sound: &Call, faults: &[Fault], rng: &mut Rng) -> Verdict {
    let call = damaged(sound, faults);
    let of_table = reported(faults.iter().filter(|fault| fault.is_of_table()));
    let of_call = reported(faults.iter());
    expect("the solver", call_result(call.measure, &call.table, &call.answers), of_call)
        .and_then(|()| returns(&call, of_table, of_call, rng))
        .map_err(|wrong| format!("{faults:?}: {wrong}"))
}

type Edit<'a> = &'a dyn Fn(&mut Call);

/// The small examples of the specification's list that every such call meets, with number and
/// place.
pub fn small_examples() -> Vec<(Call, u64, u64)> {
    let with = |edit: Edit| {
        let mut call = Call::solved(COST, worked());
        edit(&mut call);
        call
    };
    let cases: [(Edit, u64, u64); 11] = [
        (&|call| call.table.n = 1_025, 1, 0),
        (&|call| call.table = Table { heads: vec![0, 1], own: vec![1], ..Table::new(5) }, 2, 0),
        (&|call| call.table.strikes.truncate(5), 2, 0),
        (&|call| call.table.heads[3] = 5, 3, 3),
        (&|call| call.table.own[2] = 1_000_000_002, 4, 2),
        (&|call| call.table.own[2] = 1_000_000_001, 4, 2),
        (&|call| call.table.strikes[1] = 2, 21, 1),
        (&|call| call.table.spans[..4].copy_from_slice(&[0, 2, 1, 1]), 5, 1),
        (&|call| call.table.tails[4] = 9, 6, 4),
        (&|call| call.answers.depths.truncate(4), 7, 0),
        (&|call| call.measure = 3, 16, 0),
    ];
    cases.map(|(edit, number, place)| (with(edit), number, place)).to_vec()
}

fn stated(trial: &Trial) -> Outcome {
    let mut rng = trial.rng();
    let cases = small_examples();
    for (call, number, place) in &cases {
        let of_call = refusal(*number, *place);
        let of_table = if [7, 16].contains(number) { 0 } else { of_call };
        returns(call, of_table, of_call, &mut rng)?;
    }
    Ok(cases.len() as u64)
}

fn each(trial: &Trial) -> Outcome {
    let faults = faults();
    trial.cases(10, |rng| {
        let call = sound(rng);
        returns(&call, 0, 0, rng)?;
        faults.iter().try_for_each(|fault| refused(&call, &[*fault], rng))
    })
}

fn pairs(trial: &Trial) -> Outcome {
    let faults = faults();
    let mut rng = trial.rng();
    let call = sound(&mut rng);
    let mut tried = 0;
    for (place, &first) in faults.iter().enumerate() {
        // Two faults of one rank may cancel out.
        for &second in faults[place..].iter().filter(|second| second.rank() != first.rank()) {
            refused(&call, &[first, second], &mut rng)?;
            tried += 1;
        }
    }
    Ok(tried)
}

fn many(trial: &Trial) -> Outcome {
    let faults = faults();
    trial.cases(trial.count, |rng| {
        let mut chosen: Vec<Fault> = Vec::new();
        for _ in 0..rng.between(3, 8) {
            let fault = rng.pick(&faults);
            if chosen.iter().all(|other| other.rank() != fault.rank()) {
                chosen.push(fault);
            }
        }
        let call = sound(rng);
        refused(&call, &chosen, rng)
    })
}

/// A struck hyperedge is held to 3, 4, 21, 5 and 6 like any other.
fn struck(trial: &Trial) -> Outcome {
    let faults = faults();
    let mut rng = trial.rng();
    let mut call = sound(&mut rng);
    call.table.strikes.fill(STRUCK);
    call.answers = Labelling::unmade(call.table.n);
    returns(&call, 0, 0, &mut rng)?;
    for fault in &faults {
        refused(&call, &[*fault], &mut rng)?;
    }
    Ok(faults.len() as u64)
}

/// A mark that is none at any hyperedge, with a fault of 3, 4 or 5 in the same one or in an earlier
/// one: 3 and 4 come before it, 5 behind it, and an earlier hyperedge before all.
fn marks(trial: &Trial) -> Outcome {
    trial.cases(trial.count / 20, |rng| {
        let sound = Call::solved(rng.pick(&MEASURES), tables::any(rng));
        for edge in 0..sound.table.edges() {
            for mark in [2, u64::MAX] {
                let mut call = sound.clone();
                call.table.strikes[edge] = mark;
                let wanted = refusal(21, edge as u64);
                returns(&call, wanted, wanted, rng)?;
                for (number, place) in [3, 4, 5].map(|number| (number, rng.index(edge + 1))) {
                    for place in [edge, place] {
                        let first = if place == edge && number == 5 { 21 } else { number };
                        let wanted = refusal(first, place as u64);
                        returns(&with_fault(&call, number, place), wanted, wanted, rng)?;
                    }
                }
            }
        }
        Ok(())
    })
}

/// A fault of one hyperedge: another head, own weight or span.
fn with_fault(call: &Call, number: u64, edge: usize) -> Call {
    let mut call = call.clone();
    match number {
        3 => call.table.heads[edge] = call.table.n,
        4 => call.table.own[edge] = GREATEST + 1,
        _ => call.table.spans[2 * edge + 1] = 17,
    }
    call
}

fn at_the_limits(trial: &Trial) -> Outcome {
    let mut rng = trial.rng();
    let steps = steps();
    for (accepted, turned_away, number) in &steps {
        for measure in MEASURES {
            let answers = solve(measure, accepted);
            let call = Call { measure, table: accepted.clone(), answers };
            returns(&call, 0, 0, &mut rng)?;
            let call = Call { table: turned_away.clone(), ..call };
            returns(&call, refusal(*number, 0), refusal(*number, 0), &mut rng)?;
        }
    }
    Ok(steps.len() as u64)
}

/// All lengths from 0 to two above n, in all four columns at once.
fn answer_lengths(trial: &Trial) -> Outcome {
    let mut rng = trial.rng();
    let mut tried = 0;
    for n in 0..4 {
        let mut table = Table::new(n);
        (0..n).for_each(|vertex| table.push(vertex, vertex, &[]));
        for code in 0..6usize.pow(4) {
            let answers = rng.labelling([code % 6, code / 6 % 6, code / 36 % 6, code / 216]);
            let call = Call { measure: COST, table: table.clone(), answers };
            let fits = call.answers.lengths() == [n as usize; 4];
            let of_call = if fits { 0 } else { refusal(7, 0) };
            returns(&call, 0, of_call, &mut rng)?;
            tried += 1;
        }
    }
    Ok(tried)
}

/// One word or one length of a sound call changed to anything; it may still be accepted.
pub fn with_one_word(rng: &mut Rng) -> Call {
    let table = tables::any(rng);
    let mut call = Call::solved(rng.pick(&MEASURES), table);
    let Table { n, heads, own, strikes, spans, tails } = &mut call.table;
    let [weights, depths, edges, pieces] = call.answers.columns_mut();
    let columns = [heads, own, strikes, spans, tails, weights, depths, edges, pieces];
    let column = rng.index(11);
    match columns.into_iter().nth(column) {
        Some(words) if !words.is_empty() && rng.chance(80) => {
            let place = rng.index(words.len());
            words[place] = rng.any();
        }
        Some(words) if rng.chance(50) => words.truncate(words.len().saturating_sub(1)),
        Some(words) => words.push(rng.any()),
        None if column == 9 => *n = rng.any(),
        None => call.measure = rng.any(),
    }
    call
}

fn one_word(trial: &Trial) -> Outcome {
    trial.cases(4 * trial.count, |rng| {
        let call = with_one_word(rng);
        as_solver_says(&call, rng)
    })
}

/// Short columns of arbitrary numbers.
pub fn of_noise(rng: &mut Rng) -> Call {
    let edges = rng.index(4);
    let mut table = Table {
        n: rng.below(6),
        heads: (0..edges).map(|_| rng.below(6)).collect(),
        own: rng.noise(edges),
        strikes: (0..edges).map(|_| rng.pick(&[0, 0, 1, 1, 2])).collect(),
        spans: (0..2 * edges).map(|_| rng.below(5)).collect(),
        tails: (0..rng.below(8)).map(|_| rng.below(6)).collect(),
    };
    if rng.chance(30) {
        let length = rng.index(8);
        table.spans = rng.noise(length);
    }
    let length = if rng.chance(80) { table.n as usize } else { rng.index(8) };
    let measure = if rng.chance(80) { rng.pick(&MEASURES) } else { rng.any() };
    let answers = rng.labelling([length; 4]);
    Call { measure, table, answers }
}

fn noise(trial: &Trial) -> Outcome {
    trial.cases(4 * trial.count, |rng| {
        let call = of_noise(rng);
        as_solver_says(&call, rng)
    })
}
