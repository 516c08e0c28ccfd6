//! One change of a call: what it must return and leave, and the making of calls and changes.

use crate::calls::{reprice, restore, strike, Changed};
use crate::model::solver::{change_result, changed};
use crate::model::*;
use crate::random::Rng;
use crate::settle::same;
use crate::tables;
use crate::tables::damage::Call;
use crate::trial::{expect, Verdict};

/// Makes the call; it must return `wanted`, and leave the changed table's columns if that is 0, else
/// the lent ones. That nothing else is written, the wrappers see to.
pub fn returns(call: &Call, change: Change, wanted: u64) -> Result<Changed, String> {
    let Call { measure, table, answers } = call;
    let verdict = || {
        let left = match change {
            Change::Reprice(edge, own) => reprice(*measure, table, answers, edge, own),
            Change::Strike(edge) => strike(*measure, table, answers, edge),
            Change::Restore(edge) => restore(*measure, table, answers, edge),
        }?;
        expect("the change", left.result, wanted)?;
        let then = (wanted == 0).then(|| Call::solved(*measure, changed(table, change)));
        leaves(&left, then.as_ref().unwrap_or(call)).map(|()| left)
    };
    verdict().map_err(|wrong| {
        let (answers, table) = (answers.describe(), table.describe());
        format!("{wrong}; {change:?}, measure {measure}, {answers}, {table}")
    })
}

/// The written columns are those of `wanted`.
pub fn leaves(left: &Changed, wanted: &Call) -> Verdict {
    if left.own != wanted.table.own {
        return Err(format!("own weights {:?}, wanted {:?}", left.own, wanted.table.own));
    }
    if left.strikes != wanted.table.strikes {
        return Err(format!("strikes {:?}, wanted {:?}", left.strikes, wanted.table.strikes));
    }
    same("the answers left", &left.answers, &wanted.answers)
}

pub fn accepted(call: &Call, change: Change) -> Result<Changed, String> {
    returns(call, change, 0)
}

pub fn as_solver_says(call: &Call, change: Change) -> Result<Changed, String> {
    let wanted = change_result(call.measure, &call.table, &call.answers, change);
    returns(call, change, wanted)
}

/// The columns as the call leaves them, for the next one.
pub fn after(call: &Call, left: Changed) -> Call {
    let table = Table { own: left.own, strikes: left.strikes, ..call.table.clone() };
    Call { measure: call.measure, table, answers: left.answers }
}

/// A table of the family that has a live hyperedge, with its answers.
pub fn priced(rng: &mut Rng, measure: u64, make: impl Fn(&mut Rng) -> Table) -> Call {
    loop {
        let table = make(rng);
        if (0..table.edges()).any(|edge| table.is_live(edge)) {
            return Call::solved(measure, table);
        }
    }
}

/// A live hyperedge, more often one that a vertex has chosen; none if all are struck.
pub fn live_edge(rng: &mut Rng, call: &Call) -> Option<u64> {
    let Call { table, answers, .. } = call;
    let made = (0..table.n).map(|vertex| answers.label(vertex)).filter(|&label| label != UNMADE);
    let chosen: Vec<u64> = made.map(|label| label.edge).collect();
    if !chosen.is_empty() && rng.chance(70) {
        return Some(rng.pick(&chosen));
    }
    let live = (0..table.edges()).filter(|&edge| table.is_live(edge));
    let live: Vec<u64> = live.map(|edge| edge as u64).collect();
    (!live.is_empty()).then(|| rng.pick(&live))
}

pub fn new_own(rng: &mut Rng, old: u64) -> u64 {
    match rng.below(6) {
        0 => (old + rng.between(1, 4)).min(GREATEST),
        1 => old.saturating_sub(rng.between(1, 4)),
        2 => rng.pick(&[0, GREATEST]),
        _ => tables::any_own(rng),
    }
}

/// A struck hyperedge; none if all are live.
pub fn struck_edge(rng: &mut Rng, table: &Table) -> Option<u64> {
    let struck = (0..table.edges()).filter(|&edge| !table.is_live(edge));
    let struck: Vec<u64> = struck.map(|edge| edge as u64).collect();
    (!struck.is_empty()).then(|| rng.pick(&struck))
}

/// A change that is accepted: of a live hyperedge, or a struck one restored. Of hyperedge 0 if there
/// is none at all.
pub fn any_change(rng: &mut Rng, call: &Call) -> Change {
    let (live, struck) = (live_edge(rng, call), struck_edge(rng, &call.table));
    let edge = match (live, struck) {
        (Some(_), Some(edge)) if rng.chance(25) => return Change::Restore(edge),
        (Some(edge), _) => edge,
        (None, Some(edge)) => return Change::Restore(edge),
        (None, None) => return Change::Strike(0),
    };
    let old = call.table.own[edge as usize];
    if rng.chance(35) {
        Change::Strike(edge)
    } else {
        Change::Reprice(edge, new_own(rng, old))
    }
}
