//! Changes of a table whose lent answers are not its own: off by one, of the other measure, of the
//! table before or after a change, or resting on a circle. Nothing lent is altered.

use crate::model::solver::{refusal, solve};
use crate::model::*;
use crate::random::Rng;
use crate::reprice::changes::*;
use crate::tables;
use crate::tables::damage::Call;
use crate::tables::examples::circle;
use crate::tables::flaws::{flawed, Flaw};
use crate::trial::{Outcome, Test, Trial};

pub const TESTS: &[Test] = &[
    Test { name: "stale-answers/off-by-one", run: off_by_one },
    Test { name: "stale-answers/other-measure", run: other_measure },
    Test { name: "stale-answers/before-a-change", run: before_a_change },
    Test { name: "stale-answers/after-the-change", run: after_the_change },
    Test { name: "stale-answers/zero-circle", run: zero_circle },
];

/// Each place of the answers one above and one below what it is.
fn off_by_one(trial: &Trial) -> Outcome {
    trial.cases(trial.count, |rng| {
        let measure = rng.pick(&MEASURES);
        let call = priced(rng, measure, tables::any);
        for column in 0..3 {
            for vertex in 0..call.table.n as usize {
                let change = any_change(rng, &call);
                for more in [1, u64::MAX] {
                    let (lent, _) = flawed(&call, change, &[Flaw::Label(column, vertex, more)]);
                    returns(&lent, change, refusal(8, 0))?;
                }
            }
        }
        let change = any_change(rng, &call);
        accepted(&call, change).map(|_| ())
    })
}

/// Tries the answers that `make` gives instead of the right ones; some must be wrong, so a low
/// count is raised to where they are.
fn tried_wrong(
    trial: &Trial,
    make: impl Fn(&Call, Change, &mut Rng) -> Result<(Call, Change), String>,
) -> Outcome {
    let mut wrong = 0;
    trial.cases((2 * trial.count).max(200), |rng| {
        let measure = rng.pick(&MEASURES);
        let right = priced(rng, measure, tables::any);
        let change = any_change(rng, &right);
        let (lent, change) = make(&right, change, rng)?;
        let is_wrong = lent.answers != solve(measure, &lent.table);
        wrong += u64::from(is_wrong);
        returns(&lent, change, if is_wrong { refusal(8, 0) } else { 0 }).map(|_| ())
    })?;
    Ok(wrong)
}

fn other_measure(trial: &Trial) -> Outcome {
    tried_wrong(trial, |right, change, _| {
        let answers = solve((right.measure + 1) % 3, &right.table);
        Ok((Call { answers, ..right.clone() }, change))
    })
}

/// After an earlier change the columns are the new ones but the answers still the old ones, for any
/// next change, and for one that would make them right again.
fn before_a_change(trial: &Trial) -> Outcome {
    tried_wrong(trial, |right, change, rng| {
        let now = after(right, accepted(right, change)?);
        let undone = match change {
            Change::Reprice(edge, _) => Change::Reprice(edge, right.table.own[edge as usize]),
            Change::Strike(edge) => Change::Restore(edge),
            Change::Restore(edge) => Change::Strike(edge),
        };
        let next = if rng.chance(50) { undone } else { any_change(rng, &now) };
        Ok((Call { answers: right.answers.clone(), ..now }, next))
    })
}

/// The answers that the change would leave are lent before it.
fn after_the_change(trial: &Trial) -> Outcome {
    tried_wrong(trial, |right, change, _| {
        let answers = accepted(right, change)?.answers;
        Ok((Call { answers, ..right.clone() }, change))
    })
}

/// Two vertices that rest on one another only are not made, at any weight and depth.
fn zero_circle(_: &Trial) -> Outcome {
    let mut tried = 0;
    for measure in MEASURES {
        let right = Call::solved(measure, circle());
        for depths in [(1, 1), (1, 2), (2, 1), (0, 1), (u64::MAX, 0), (u64::MAX, 1)] {
            for weight in [0, 1, OVER] {
                let first = Label { weight, depth: depths.0, edge: 0, pieces: 1 };
                let answers = Labelling::of(&[first, Label { depth: depths.1, edge: 1, ..first }]);
                let lent = Call { answers, ..right.clone() };
                for change in [Change::Reprice(0, 0), Change::Reprice(1, 5), Change::Strike(0)] {
                    accepted(&right, change)?;
                    returns(&lent, change, refusal(8, 0))?;
                    tried += 1;
                }
                // Struck, vertex 0 rests on nothing; restored, on the circle again.
                let mut lent = lent.clone();
                lent.table.strikes[0] = STRUCK;
                returns(&lent, Change::Restore(0), refusal(8, 0))?;
                tried += 1;
            }
        }
    }
    Ok(tried)
}
