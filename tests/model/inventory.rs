//! Replaying a record a second way: the counts stand in a map from part to pieces, and what a line
//! needs is counted into another before anything is taken. With the refusals in the request's order.

use crate::model::solver::{call_result, refusal, solve};
use crate::model::*;
use std::collections::BTreeMap;

pub const MOST_EVENTS: usize = 4_096;
pub const MOST_STOCK: u64 = 1_000_000;

/// The outcomes, by the numbers that stand for them.
pub const RECEIVED: u64 = 0;
pub const ISSUED: u64 = 1;
pub const BUILT: u64 = 2;
pub const LATE: u64 = 3;

/// The four columns as they are lent.
#[derive(Clone)]
pub struct Record {
    pub parts: Vec<u64>,
    pub received: Vec<u64>,
    pub stock: Vec<u64>,
    pub outcomes: Vec<u64>,
}

impl Record {
    /// Events as part and pieces.
    pub fn of(events: &[(u64, u64)], stock: &[u64], outcomes: &[u64]) -> Record {
        Record {
            parts: events.iter().map(|event| event.0).collect(),
            received: events.iter().map(|event| event.1).collect(),
            stock: stock.to_vec(),
            outcomes: outcomes.to_vec(),
        }
    }

    pub fn describe(&self) -> String {
        let Record { parts, received, stock, outcomes } = self;
        if parts.len() + stock.len() > 100 {
            return format!("{} events over {} counts", parts.len(), stock.len());
        }
        format!("parts={parts:?} received={received:?} stock={stock:?} outcomes={outcomes:?}")
    }
}

/// The parts that the chosen line of a made part lists.
pub fn listed<'a>(table: &'a Table, right: &Labelling, part: u64) -> Option<&'a [u64]> {
    let label = right.label(part);
    (label.depth > 0).then(|| table.tail(label.edge as usize))
}

type Counts = BTreeMap<u64, u64>;

fn needs(tail: &[u64]) -> Counts {
    let mut needs = Counts::new();
    for &part in tail {
        *needs.entry(part).or_insert(0) += 1;
    }
    needs
}

/// What becomes of an order.
fn order(table: &Table, right: &Labelling, part: u64, counts: &mut Counts) -> u64 {
    let here = counts.entry(part).or_insert(0);
    if *here > 0 {
        *here -= 1;
        return ISSUED;
    }
    let needs = needs(listed(table, right, part).unwrap_or(&[]));
    let held = |part: &u64| counts.get(part).copied().unwrap_or(0);
    if needs.is_empty() || needs.iter().any(|(part, &needed)| held(part) < needed) {
        return LATE;
    }
    for (part, needed) in needs {
        *counts.entry(part).or_insert(0) -= needed;
    }
    BUILT
}

/// What a call with any columns must return before it looks at the events.
fn opening_result(measure: u64, table: &Table, answers: &Labelling, record: &Record) -> u64 {
    let result = call_result(measure, table, answers);
    if result == refusal(16, 0) || result == refusal(1, 0) {
        return result;
    }
    let events = record.parts.len();
    let agree = record.received.len() == events && record.outcomes.len() == events;
    if !agree || events > MOST_EVENTS {
        return refusal(2, 0);
    }
    if result != 0 {
        return result;
    }
    if record.stock.len() as u64 != table.n {
        return refusal(7, 0);
    }
    if *answers != solve(measure, table) {
        return refusal(8, 0);
    }
    match record.stock.iter().position(|&count| count > MOST_STOCK) {
        Some(part) => refusal(26, part as u64),
        None => 0,
    }
}

/// The result, and the counts and the outcomes that must be left.
pub fn replayed(
    measure: u64,
    table: &Table,
    answers: &Labelling,
    record: &Record,
) -> (u64, Vec<u64>, Vec<u64>) {
    let refused = |result: u64| (result, record.stock.clone(), record.outcomes.clone());
    let result = opening_result(measure, table, answers, record);
    if result != 0 {
        return refused(result);
    }
    let mut counts: Counts = (0..).zip(record.stock.iter().copied()).collect();
    let mut outcomes = Vec::new();
    for (event, (&part, &pieces)) in (0..).zip(record.parts.iter().zip(&record.received)) {
        if part >= table.n {
            return refused(refusal(25, event));
        }
        if pieces == 0 {
            outcomes.push(order(table, answers, part, &mut counts));
            continue;
        }
        let sum = u128::from(counts[&part]) + u128::from(pieces);
        if sum > u128::from(MOST_STOCK) {
            return refused(refusal(26, event));
        }
        counts.insert(part, sum as u64);
        outcomes.push(RECEIVED);
    }
    (0, counts.into_values().collect(), outcomes)
}
