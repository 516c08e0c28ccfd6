//! The check and the settling of tables in topological order.

use crate::calls::lending::{LentLabelling, LentTable};
use crate::model::{Labelling, Table};

extern "C" {
    fn tozbierdu_check_order(
        n: u64,
        heads: *const u64,
        heads_len: usize,
        own: *const u64,
        own_len: usize,
        strikes: *const u64,
        strikes_len: usize,
        spans: *const u64,
        spans_len: usize,
        tails: *const u64,
        tails_len: usize,
    ) -> u64;

    fn tozbierdu_settle_ordered(
        measure: u64,
        n: u64,
        heads: *const u64,
        heads_len: usize,
        own: *const u64,
        own_len: usize,
        strikes: *const u64,
        strikes_len: usize,
        spans: *const u64,
        spans_len: usize,
        tails: *const u64,
        tails_len: usize,
        weights: *mut u64,
        weights_len: usize,
        depths: *mut u64,
        depths_len: usize,
        edges: *mut u64,
        edges_len: usize,
        pieces: *mut u64,
        pieces_len: usize,
    ) -> u64;
}

pub fn check_order(table: &Table) -> Result<u64, String> {
    let mut lent = LentTable::lend(table);
    let result = unsafe {
        tozbierdu_check_order(
            table.n,
            lent.heads.pointer(),
            lent.heads.len(),
            lent.own.pointer(),
            lent.own.len(),
            lent.strikes.pointer(),
            lent.strikes.len(),
            lent.spans.pointer(),
            lent.spans.len(),
            lent.tails.pointer(),
            lent.tails.len(),
        )
    };
    lent.kept().map_err(|wrong| format!("check_order, {wrong}"))?;
    Ok(result)
}

/// The result, and the answer columns as the call leaves them.
pub fn settle_ordered(
    measure: u64,
    table: &Table,
    answers: &Labelling,
) -> Result<(u64, Labelling), String> {
    let mut lent = LentTable::lend(table);
    let mut room = LentLabelling::lend(answers);
    let result = unsafe {
        tozbierdu_settle_ordered(
            measure,
            table.n,
            lent.heads.pointer(),
            lent.heads.len(),
            lent.own.pointer(),
            lent.own.len(),
            lent.strikes.pointer(),
            lent.strikes.len(),
            lent.spans.pointer(),
            lent.spans.len(),
            lent.tails.pointer(),
            lent.tails.len(),
            room.weights.pointer(),
            room.weights.len(),
            room.depths.pointer(),
            room.depths.len(),
            room.edges.pointer(),
            room.edges.len(),
            room.pieces.pointer(),
            room.pieces.len(),
        )
    };
    let columns = if result == 0 { room.guarded() } else { room.kept() };
    lent.kept().and(columns).map_err(|wrong| format!("settle_ordered, {wrong}"))?;
    Ok((result, room.labelling()))
}
