//! Refusals of the check of the order and of settling in order: 24 among all others.

use crate::calls::ordered::{check_order, settle_ordered};
use crate::calls::{check_answers, check_table, settle};
use crate::model::order::{order_result, ordered_result};
use crate::model::solver::{call_result, refusal, table_result};
use crate::model::*;
use crate::ordered::in_order;
use crate::random::Rng;
use crate::settle::refusals::{of_noise, with_one_word};
use crate::tables;
use crate::tables::damage::{damaged, faults, sound, Call};
use crate::trial::{expect, Outcome, Test, Trial, Verdict};

pub const TESTS: &[Test] = &[
    Test { name: "ordered/raised", run: raised },
    Test { name: "ordered/beside", run: beside },
    Test { name: "ordered/faults", run: with_faults },
    Test { name: "ordered/one-word", run: |trial| as_told(trial, with_one_word) },
    Test { name: "ordered/noise", run: |trial| as_told(trial, of_noise) },
];

/// Both calls return what the model says; a refused one keeps the room, and no other call knows 24.
fn returns(call: &Call, rng: &mut Rng) -> Verdict {
    let Call { measure, table, answers } = call;
    let mut verdict = || {
        expect("check_order", check_order(table)?, order_result(table))?;
        let room = rng.labelling(answers.lengths());
        let wanted = ordered_result(*measure, table, &room);
        expect("settle_ordered", settle_ordered(*measure, table, &room)?.0, wanted)?;
        expect("check_table", check_table(table)?, table_result(table))?;
        let wanted = call_result(*measure, table, &room);
        expect("settle", settle(*measure, table, &room)?.0, wanted)?;
        let checked = check_answers(*measure, table, &room)?;
        if checked >> 32 == 24 {
            return Err("check_answers gave refusal 24".to_string());
        }
        Ok(())
    };
    verdict().map_err(|wrong| format!("{wrong}; measure {measure}, {}", table.describe()))
}

fn call(table: Table, measure: u64) -> Call {
    let answers = Labelling::unmade(table.n);
    Call { measure, table, answers }
}

/// One listed vertex raised to its head, to one more, to the last vertex, to n and beyond; struck
/// lines too.
fn raised(trial: &Trial) -> Outcome {
    trial.cases(trial.count / 4, |rng| {
        let mut sound = in_order(&tables::any(rng));
        if rng.chance(30) {
            sound.strikes.fill(STRUCK);
        }
        for edge in 0..sound.edges() {
            let (offset, length) = (sound.spans[2 * edge], sound.spans[2 * edge + 1]);
            if length == 0 {
                continue;
            }
            let place = (offset + rng.below(length)) as usize;
            let (head, n) = (sound.heads[edge], sound.n);
            for vertex in [head, head + 1, n - 1, n, u64::MAX] {
                let mut table = sound.clone();
                table.tails[place] = vertex;
                let number = match vertex {
                    _ if vertex >= n => 6,
                    _ if vertex >= head => 24,
                    _ => continue,
                };
                expect("the model", order_result(&table), refusal(number, edge as u64))?;
                returns(&call(table, rng.pick(&MEASURES)), rng)?;
            }
        }
        Ok(())
    })
}

/// 24 in a line, and 3, 4, 21, 5 or 6 in the same one, in one before or in one behind.
fn beside(trial: &Trial) -> Outcome {
    trial.cases(trial.count / 4, |rng| {
        let mut table = in_order(&tables::any(rng));
        let listing = |edge: &usize| table.spans[2 * edge + 1] > 0;
        let edges: Vec<usize> = (0..table.edges()).filter(listing).collect();
        if edges.is_empty() {
            return Ok(());
        }
        let edge = rng.pick(&edges);
        let offset = table.spans[2 * edge] as usize;
        table.tails[offset] = table.heads[edge];
        expect("the model", order_result(&table), refusal(24, edge as u64))?;
        for other in 0..table.edges() {
            let span = table.spans[2 * other] as usize;
            let has_tail = table.spans[2 * other + 1] > 0;
            for number in [3, 4, 21, 5, 6] {
                let mut table = table.clone();
                match number {
                    3 => table.heads[other] = table.n,
                    4 => table.own[other] = GREATEST + 1,
                    21 => table.strikes[other] = 2,
                    5 => table.spans[2 * other + 1] = 17,
                    _ if has_tail && (other != edge || table.spans[2 * other + 1] > 1) => {
                        let last = span + table.spans[2 * other + 1] as usize - 1;
                        table.tails[last] = table.n;
                    }
                    _ => continue,
                }
                let (number, place) = if other <= edge { (number, other) } else { (24, edge) };
                expect("the model", order_result(&table), refusal(number, place as u64))?;
                returns(&call(table, rng.pick(&MEASURES)), rng)?;
            }
        }
        Ok(())
    })
}

/// Every fault of any call, alone and with another, in a table in order and in one that is not.
fn with_faults(trial: &Trial) -> Outcome {
    let faults = faults();
    trial.cases(20, |rng| {
        let sound = sound(rng);
        let ordered = Call { table: in_order(&sound.table), ..sound.clone() };
        for &fault in &faults {
            let other = rng.pick(&faults);
            for call in [&sound, &ordered] {
                returns(&damaged(call, &[fault]), rng)?;
                returns(&damaged(call, &[fault, other]), rng)?;
            }
        }
        Ok(())
    })
}

fn as_told(trial: &Trial, made: fn(&mut Rng) -> Call) -> Outcome {
    trial.cases(2 * trial.count, |rng| {
        let call = made(rng);
        returns(&call, rng)
    })
}
