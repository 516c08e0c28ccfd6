//! Repricing, striking and restoring in accepted tables: one own weight or one mark changes in its
//! place, and the answers become those of the table as it then is.

pub mod changes;
pub mod counting;
pub mod letter;
pub mod raising;
pub mod refusals;

use crate::model::solver::refusal;
use crate::model::trees::{small_edges, small_table};
use crate::model::*;
use crate::random::Rng;
use crate::reprice::changes::*;
use crate::settle::{large, same, short_or_long_chain as chain};
use crate::tables;
use crate::tables::damage::Call;
use crate::tables::examples::{changes, p1, p10};
use crate::tables::limits::limits;
use crate::trial::{expect, Outcome, Test, Trial, Verdict};

pub const TESTS: &[Test] = &[
    Test { name: "repricing/examples", run: stated },
    Test { name: "repricing/random", run: |trial| made(trial, 8 * trial.count, 1, tables::any) },
    Test { name: "repricing/in-turn", run: |trial| made(trial, trial.count / 2, 20, tables::any) },
    Test { name: "repricing/chains", run: |trial| made(trial, trial.count / 40, 3, chain) },
    Test { name: "repricing/large", run: |trial| made(trial, trial.count / 40, 3, large) },
    Test { name: "repricing/limits", run: at_the_limits },
    Test { name: "repricing/up-and-back", run: up_and_back },
    Test { name: "repricing/same-weight", run: same_weight },
    Test { name: "repricing/least-and-greatest", run: least_and_greatest },
    Test { name: "repricing/strike-and-restore", run: strike_and_restore },
    Test { name: "repricing/kept-figure", run: kept_figure },
    Test { name: "repricing/all-struck", run: all_struck },
    Test { name: "repricing/all-of-two-vertices", run: all_small },
];

/// P3 and P10, from the answers that the specification states to those that it states.
fn stated(_: &Trial) -> Outcome {
    let first = p1();
    let answers = Labelling::of(&first.labels);
    let call = Call { measure: first.measure, table: first.table, answers };
    let cases = changes();
    for (change, then) in &cases {
        let answers = Labelling::of(&then.labels);
        let wanted = Call { measure: then.measure, table: then.table.clone(), answers };
        accepted(&call, *change)
            .and_then(|left| leaves(&left, &wanted))
            .map_err(|wrong| format!("{}: {wrong}", then.name))?;
    }
    let last = p10();
    let struck =
        Call { measure: last.measure, table: last.table, answers: Labelling::of(&last.labels) };
    accepted(&struck, Change::Restore(0))
        .and_then(|left| leaves(&left, &call))
        .map_err(|wrong| format!("P10 taken back: {wrong}"))?;
    Ok(cases.len() as u64 + 1)
}

/// Changes one after another, each with the columns that the one before left. A few name any
/// hyperedge, or none.
fn in_turn(rng: &mut Rng, mut call: Call, changes: u64) -> Verdict {
    for _ in 0..changes {
        let mut change = any_change(rng, &call);
        if rng.chance(8) {
            let edge = rng.below(2 + call.table.edges() as u64);
            let any = [Change::Reprice(edge, 7), Change::Strike(edge), Change::Restore(edge)];
            change = rng.pick(&any);
        }
        let left = as_solver_says(&call, change)?;
        call = after(&call, left);
    }
    Ok(())
}

/// So many changes of a table, in each measure.
fn made(
    trial: &Trial,
    cases: u64,
    changes: u64,
    make: impl Fn(&mut Rng) -> Table + Copy,
) -> Outcome {
    trial.cases(cases, |rng| {
        MEASURES.into_iter().try_for_each(|measure| {
            let call = priced(rng, measure, make);
            in_turn(rng, call, changes)
        })
    })
}

fn at_the_limits(trial: &Trial) -> Outcome {
    let mut rng = trial.rng();
    let mut cases = 0;
    for (name, table) in limits(&mut rng) {
        for measure in MEASURES {
            let call = Call::solved(measure, table.clone());
            in_turn(&mut rng, call, 3).map_err(|wrong| format!("{name}: {wrong}"))?;
            cases += 1;
        }
    }
    Ok(cases)
}

/// Raised and lowered again, or lowered and raised again: the columns are as they were at first.
fn up_and_back(trial: &Trial) -> Outcome {
    trial.cases(4 * trial.count, |rng| {
        let measure = rng.pick(&MEASURES);
        let first = priced(rng, measure, tables::any);
        let edge = live_edge(rng, &first).ok_or("no live hyperedge")?;
        let old = first.table.own[edge as usize];
        for own in [rng.between(old, GREATEST), rng.between(0, old), new_own(rng, old)] {
            let there = after(&first, accepted(&first, Change::Reprice(edge, own))?);
            let back = accepted(&there, Change::Reprice(edge, old))?;
            leaves(&back, &first).map_err(|wrong| format!("set back: {wrong}"))?;
        }
        Ok(())
    })
}

fn same_weight(trial: &Trial) -> Outcome {
    trial.cases(trial.count / 4, |rng| {
        let measure = rng.pick(&MEASURES);
        let call = priced(rng, measure, tables::any);
        for edge in (0..call.table.edges()).filter(|&edge| call.table.is_live(edge)) {
            let left = accepted(&call, Change::Reprice(edge as u64, call.table.own[edge]))?;
            leaves(&left, &call)?;
        }
        Ok(())
    })
}

/// Each live hyperedge to 0, from there to the greatest own weight, and back to 0.
fn least_and_greatest(trial: &Trial) -> Outcome {
    trial.cases(trial.count / 8, |rng| {
        let measure = rng.pick(&MEASURES);
        let first = priced(rng, measure, tables::any);
        for edge in (0..first.table.edges()).filter(|&edge| first.table.is_live(edge)) {
            let mut call = first.clone();
            for own in [0, GREATEST, 0] {
                let left = accepted(&call, Change::Reprice(edge as u64, own))?;
                expect("the own weight", left.own[edge], own)?;
                call = after(&call, left);
            }
        }
        Ok(())
    })
}

/// Each hyperedge struck and restored, or restored and struck again: all columns are as they were at
/// first, byte for byte.
fn strike_and_restore(trial: &Trial) -> Outcome {
    trial.cases(trial.count, |rng| {
        let measure = rng.pick(&MEASURES);
        let first = Call::solved(measure, tables::any(rng));
        for edge in 0..first.table.edges() as u64 {
            let (there, back) = match first.table.is_live(edge as usize) {
                true => (Change::Strike(edge), Change::Restore(edge)),
                false => (Change::Restore(edge), Change::Strike(edge)),
            };
            let then = after(&first, accepted(&first, there)?);
            leaves(&accepted(&then, back)?, &first).map_err(|wrong| format!("back: {wrong}"))?;
        }
        Ok(())
    })
}

/// A hyperedge is struck, others change, and it is restored: at its own weight, which nothing has
/// touched, in the table as it then is. Meanwhile it can't be repriced.
fn kept_figure(trial: &Trial) -> Outcome {
    trial.cases(4 * trial.count, |rng| {
        let measure = rng.pick(&MEASURES);
        let first = priced(rng, measure, tables::any);
        let edge = live_edge(rng, &first).ok_or("no live hyperedge")?;
        let kept = first.table.own[edge as usize];
        let mut call = after(&first, accepted(&first, Change::Strike(edge))?);
        for _ in 0..rng.below(6) {
            returns(&call, Change::Reprice(edge, new_own(rng, kept)), refusal(9, 0))?;
            let change = any_change(rng, &call);
            if change.edge() != edge {
                call = after(&call, accepted(&call, change)?);
            }
        }
        let left = accepted(&call, Change::Restore(edge))?;
        expect("the own weight", left.own[edge as usize], kept)?;
        call.table.strikes[edge as usize] = STANDS;
        leaves(&left, &Call::solved(measure, call.table))
    })
}

/// All live hyperedges struck in any order: in the end nothing is made, and no change but a restoring
/// is accepted. Restored in any order, they give the answers of before.
fn all_struck(trial: &Trial) -> Outcome {
    trial.cases(trial.count / 8, |rng| {
        let measure = rng.pick(&MEASURES);
        let first = priced(rng, measure, tables::any);
        let (mut call, mut struck) = (first.clone(), Vec::new());
        while let Some(edge) = live_edge(rng, &call) {
            let left = accepted(&call, Change::Strike(edge))?;
            expect("the mark", left.strikes[edge as usize], STRUCK)?;
            struck.push(edge);
            call = after(&call, left);
        }
        same("with all struck", &call.answers, &Labelling::unmade(call.table.n))?;
        for edge in 0..call.table.edges() as u64 {
            returns(&call, Change::Strike(edge), refusal(9, 0))?;
            returns(&call, Change::Reprice(edge, new_own(rng, 0)), refusal(9, 0))?;
        }
        rng.shuffle(&mut struck);
        for edge in struck {
            call = after(&call, accepted(&call, Change::Restore(edge))?);
        }
        if call.table != first.table {
            return Err("with all restored, another table".to_string());
        }
        same("with all restored", &call.answers, &first.answers)
    })
}

/// Every change to low weights of every table of up to two small hyperedges, and of one beyond.
fn all_small(_: &Trial) -> Outcome {
    let kinds = small_edges();
    let mut cases = 0;
    for edges in 0..=2 {
        for number in 0..kinds.len().pow(edges) {
            for measure in MEASURES {
                let call = Call::solved(measure, small_table(&kinds, edges, number));
                for edge in 0..=u64::from(edges) {
                    as_solver_says(&call, Change::Strike(edge))?;
                    as_solver_says(&call, Change::Restore(edge))?;
                    for own in 0..3 {
                        as_solver_says(&call, Change::Reprice(edge, own))?;
                    }
                }
                cases += 1;
            }
        }
    }
    Ok(cases)
}
