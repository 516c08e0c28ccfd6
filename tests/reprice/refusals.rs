//! Changes that are turned away: number and place, the order among several faults, and that nothing
//! lent is altered, which the wrappers see to.

use crate::model::solver::{change_result, refusal, solve};
use crate::model::*;
use crate::random::Rng;
use crate::reprice::changes::*;
use crate::settle::refusals::{of_noise, small_examples, with_one_word};
use crate::tables;
use crate::tables::damage::Call;
use crate::tables::examples::worked;
use crate::tables::flaws::*;
use crate::tables::limits::steps;
use crate::trial::{expect, Outcome, Test, Trial, Verdict};

pub const TESTS: &[Test] = &[
    Test { name: "repricing-refusals/stated", run: stated },
    Test { name: "repricing-refusals/each", run: each },
    Test { name: "repricing-refusals/pairs", run: pairs },
    Test { name: "repricing-refusals/many", run: many },
    Test { name: "repricing-refusals/limits", run: at_the_limits },
    Test { name: "repricing-refusals/hyperedges", run: hyperedges },
    Test { name: "repricing-refusals/not-struck", run: not_struck },
    Test { name: "repricing-refusals/own-weights", run: own_weights },
    Test { name: "repricing-refusals/one-word", run: one_word },
    Test { name: "repricing-refusals/noise", run: noise },
];

/// The flaws' own order decides; the solver must say the same, or one of the two is wrong.
fn refused(sound: &Call, change: Change, flaws: &[Flaw]) -> Verdict {
    let wanted = reported(flaws, change);
    let (call, change) = flawed(sound, change, flaws);
    let solved = change_result(call.measure, &call.table, &call.answers, change);
    expect("the solver", solved, wanted)
        .and_then(|()| returns(&call, change, wanted))
        .map(|_| ())
        .map_err(|wrong| format!("{flaws:?}: {wrong}"))
}

/// The small examples of the specification's list.
fn stated(_: &Trial) -> Outcome {
    let call = Call::solved(COST, worked());
    let mut off = call.clone();
    off.answers.weights[3] += 1;
    let no_line = [Change::Reprice(6, 500), Change::Strike(6), Change::Restore(6)];
    let mut cases = vec![
        (call.clone(), Change::Reprice(1, GREATEST + 1), refusal(10, 0)),
        (call.clone(), Change::Restore(0), refusal(20, 0)),
        (off.clone(), Change::Restore(0), refusal(20, 0)),
    ];
    cases.extend(no_line.map(|change| (call.clone(), change, refusal(9, 0))));
    off.table.strikes[5] = STRUCK;
    for change in [Change::Reprice(1, 500), Change::Strike(0), Change::Restore(5)] {
        cases.push((off.clone(), change, refusal(8, 0)));
        let others = small_examples().into_iter();
        cases.extend(others.map(|(call, number, place)| (call, change, refusal(number, place))));
    }
    for (call, change, wanted) in &cases {
        returns(call, *change, *wanted)?;
    }
    Ok(cases.len() as u64)
}

fn each(trial: &Trial) -> Outcome {
    let flaws = flaws();
    trial.cases(10, |rng| {
        let call = sound_call(rng);
        for change in sound_changes(rng) {
            accepted(&call, change)?;
            flaws.iter().try_for_each(|flaw| refused(&call, change, &[*flaw]))?;
        }
        Ok(())
    })
}

fn pairs(trial: &Trial) -> Outcome {
    let flaws = flaws();
    let mut rng = trial.rng();
    let call = sound_call(&mut rng);
    let mut tried = 0;
    for change in sound_changes(&mut rng) {
        for (place, first) in flaws.iter().enumerate() {
            // Two flaws of one rank may cancel out.
            let differs = |second: &&Flaw| second.rank(change) != first.rank(change);
            for second in flaws[place..].iter().filter(differs) {
                refused(&call, change, &[*first, *second])?;
                tried += 1;
            }
        }
    }
    Ok(tried)
}

fn many(trial: &Trial) -> Outcome {
    let flaws = flaws();
    trial.cases(trial.count, |rng| {
        let call = sound_call(rng);
        for change in sound_changes(rng) {
            let mut chosen: Vec<Flaw> = Vec::new();
            for _ in 0..rng.between(3, 8) {
                let flaw = rng.pick(&flaws);
                if chosen.iter().all(|other| other.rank(change) != flaw.rank(change)) {
                    chosen.push(flaw);
                }
            }
            refused(&call, change, &chosen)?;
        }
        Ok(())
    })
}

/// The last accepted table and the first refused one.
fn at_the_limits(_: &Trial) -> Outcome {
    let steps = steps();
    for (sound, turned_away, number) in &steps {
        for measure in MEASURES {
            let call = Call::solved(measure, sound.clone());
            let next = Call { table: turned_away.clone(), ..call.clone() };
            let live = (sound.edges() > 0).then(|| sound.is_live(0));
            for change in [Change::Reprice(0, 3), Change::Strike(0), Change::Restore(0)] {
                let wanted = match (live, change) {
                    (Some(true), Change::Restore(_)) => refusal(20, 0),
                    (Some(false), Change::Restore(_)) => 0,
                    (Some(true), _) => 0,
                    _ => refusal(9, 0),
                };
                returns(&call, change, wanted)?;
                returns(&next, change, refusal(*number, 0))?;
            }
        }
    }
    Ok(steps.len() as u64)
}

/// A table in which half of the hyperedges are struck; its answers are at times anything.
fn with_strikes(rng: &mut Rng) -> Call {
    let table = tables::random(rng, &tables::STRIKES);
    let mut call = Call::solved(rng.pick(&MEASURES), table);
    if rng.chance(30) {
        call.answers = rng.labelling(call.answers.lengths());
    }
    call
}

/// Restoring: 9 for hyperedges that do not exist, 20 for those that stand, whatever the answers are.
fn not_struck(trial: &Trial) -> Outcome {
    trial.cases(trial.count / 4, |rng| {
        let call = with_strikes(rng);
        for edge in outside(call.table.edges() as u64) {
            returns(&call, Change::Restore(edge), refusal(9, 0))?;
        }
        let right = call.answers == solve(call.measure, &call.table);
        for edge in 0..call.table.edges() {
            let wanted = match (call.table.is_live(edge), right) {
                (true, _) => refusal(20, 0),
                (false, true) => 0,
                (false, false) => refusal(8, 0),
            };
            returns(&call, Change::Restore(edge as u64), wanted)?;
        }
        Ok(())
    })
}

/// Hyperedges that do not exist or are struck, whatever the new own weight and the answers are.
fn hyperedges(trial: &Trial) -> Outcome {
    trial.cases(trial.count / 4, |rng| {
        let call = with_strikes(rng);
        let table = &call.table;
        let struck = (0..table.edges()).filter(|&edge| !table.is_live(edge));
        let struck: Vec<u64> = struck.map(|edge| edge as u64).collect();
        for edge in [struck, outside(table.edges() as u64)].concat() {
            returns(&call, Change::Strike(edge), refusal(9, 0))?;
            returns(&call, Change::Reprice(edge, rng.any()), refusal(9, 0))?;
        }
        Ok(())
    })
}

/// Own weights above the greatest, whatever the answers are.
fn own_weights(trial: &Trial) -> Outcome {
    trial.cases(trial.count / 4, |rng| {
        let measure = rng.pick(&MEASURES);
        let mut call = priced(rng, measure, tables::any);
        let edge = live_edge(rng, &call).ok_or("no live hyperedge")?;
        accepted(&call, Change::Reprice(edge, GREATEST))?;
        if rng.chance(30) {
            call.answers = rng.labelling(call.answers.lengths());
        }
        for own in [TOO_GREAT.to_vec(), vec![rng.between(GREATEST + 1, u64::MAX - 1)]].concat() {
            returns(&call, Change::Reprice(edge, own), refusal(10, 0))?;
        }
        Ok(())
    })
}

fn any_wish(rng: &mut Rng, call: &Call) -> Change {
    let edges = call.table.edges() as u64;
    let edge = if rng.chance(90) { rng.below(edges + 1) } else { rng.any() };
    let own = if rng.chance(80) { tables::any_own(rng) } else { rng.any() };
    rng.pick(&[Change::Reprice(edge, own), Change::Strike(edge), Change::Restore(edge)])
}

/// One word or one length of the columns changed to anything; it may still be accepted.
fn one_word(trial: &Trial) -> Outcome {
    trial.cases(4 * trial.count, |rng| {
        let call = with_one_word(rng);
        let change = any_wish(rng, &call);
        as_solver_says(&call, change).map(|_| ())
    })
}

/// Short columns of arbitrary numbers, at times with the answers that they have.
fn noise(trial: &Trial) -> Outcome {
    trial.cases(4 * trial.count, |rng| {
        let mut call = of_noise(rng);
        let lengths = call.answers.lengths();
        let unmade = Labelling::unmade(call.table.n);
        if lengths == unmade.lengths() && rng.chance(70) {
            call.answers = unmade;
        }
        let change = any_wish(rng, &call);
        as_solver_says(&call, change).map(|_| ())
    })
}
