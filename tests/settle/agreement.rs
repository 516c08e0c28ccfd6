//! The calls beside one another: the same refusal where both refuse, and answers that the answer
//! check accepts where a call is accepted.

use crate::calls::{bill, check_answers, reprice, restore, settle, strike};
use crate::model::solver::solve;
use crate::model::*;
use crate::random::Rng;
use crate::tables;
use crate::tables::damage::{damaged, faults, sound, Call};
use crate::trial::{expect, Outcome, Test, Trial, Verdict};

pub const TESTS: &[Test] = &[
    Test { name: "agreement/accepted", run: accepted },
    Test { name: "agreement/refused", run: refused },
];

const YES: u64 = 1;
const NO: u64 = 0;

fn is_refusal(result: u64) -> bool {
    result >> 32 != 0
}

/// Settling refuses what the library's check refuses, and leaves answers that it accepts.
fn settling(call: &Call) -> Verdict {
    let checked = check_answers(call.measure, &call.table, &call.answers)?;
    let (result, left) = settle(call.measure, &call.table, &call.answers)?;
    if is_refusal(checked) || is_refusal(result) {
        return expect("settle beside check_answers", result, checked);
    }
    expect(
        "check_answers of what settle left",
        check_answers(call.measure, &call.table, &left)?,
        YES,
    )
}

/// Repricing to a figure that is allowed refuses what the library's strike refuses, and leaves the
/// answers of the changed table.
fn repricing(call: &Call, edge: u64, own: u64) -> Verdict {
    let struck = strike(call.measure, &call.table, &call.answers, edge)?;
    let changed = reprice(call.measure, &call.table, &call.answers, edge, own)?;
    expect("reprice beside strike", changed.result, struck.result)?;
    if is_refusal(changed.result) {
        return Ok(());
    }
    let table = Table { own: changed.own, ..call.table.clone() };
    expect(
        "check_answers of what reprice left",
        check_answers(call.measure, &table, &changed.answers)?,
        YES,
    )?;
    let table = Table { strikes: struck.strikes, ..call.table.clone() };
    expect(
        "check_answers of what strike left",
        check_answers(call.measure, &table, &struck.answers)?,
        YES,
    )?;
    let restored = restore(call.measure, &table, &struck.answers, edge)?;
    expect("restore behind strike", restored.result, 0)?;
    let table = Table { strikes: restored.strikes, ..call.table.clone() };
    expect(
        "check_answers of what restore left",
        check_answers(call.measure, &table, &restored.answers)?,
        YES,
    )
}

/// A bill of a part that is there is refused as the library's check says; its first line is the
/// part's own.
fn billing(call: &Call, part: u64) -> Verdict {
    let checked = check_answers(call.measure, &call.table, &call.answers)?;
    let (result, room) = bill(call.measure, &call.table, &call.answers, part, &[7; 64])?;
    if is_refusal(checked) {
        return expect("bill beside check_answers", result, checked);
    }
    if checked == NO {
        return expect("bill of wrong answers", result >> 32, 8);
    }
    let label = call.answers.label(part);
    match result >> 32 {
        0 => expect("the bill's root", room[0], label.edge),
        12 => expect("the depth of a part without a bill", label.depth, 0),
        other => expect("the refusal of a bill", other, 13),
    }
}

fn all(call: &Call, rng: &mut Rng) -> Verdict {
    settling(call)?;
    repricing(call, rng.below(call.table.heads.len() as u64 + 2), rng.below(GREATEST + 1))?;
    let part = rng.below(call.table.n.max(1));
    if part < call.table.n
        && (part as usize) < call.answers.lengths().into_iter().min().unwrap_or(0)
    {
        billing(call, part)?;
    }
    Ok(())
}

/// Accepted tables with right answers, and with one number off.
fn accepted(trial: &Trial) -> Outcome {
    trial.cases(trial.count, |rng| {
        let table = tables::any(rng);
        let measure = rng.pick(&MEASURES);
        let mut call = Call { measure, answers: solve(measure, &table), table };
        all(&call, rng)?;
        if call.table.n > 0 {
            let at = rng.index(call.table.n as usize);
            call.answers.weights[at] ^= 1;
            all(&call, rng)?;
        }
        Ok(())
    })
}

/// Every fault alone: the same refusal from both.
fn refused(trial: &Trial) -> Outcome {
    trial.cases(20, |rng| {
        let call = sound(rng);
        for fault in faults() {
            let call = damaged(&call, &[fault]);
            all(&call, rng).map_err(|wrong| format!("{wrong}; {fault:?}"))?;
        }
        Ok(())
    })
}
