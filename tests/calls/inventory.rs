//! Replaying a record of receipts and orders.

use crate::calls::lending::{Column, LentLabelling, LentTable};
use crate::model::inventory::Record;
use crate::model::{Labelling, Table};

extern "C" {
    fn tozbierdu_replay(
        measure: u64,
        n: u64,
        heads: *const u64,
        heads_len: usize,
        own: *const u64,
        own_len: usize,
        strikes: *const u64,
        strikes_len: usize,
        spans: *const u64,
        spans_len: usize,
        tails: *const u64,
        tails_len: usize,
        weights: *const u64,
        weights_len: usize,
        depths: *const u64,
        depths_len: usize,
        edges: *const u64,
        edges_len: usize,
        pieces: *const u64,
        pieces_len: usize,
        parts: *const u64,
        parts_len: usize,
        received: *const u64,
        received_len: usize,
        stock: *mut u64,
        stock_len: usize,
        outcomes: *mut u64,
        outcomes_len: usize,
    ) -> u64;
}

/// The result, and the counts and the outcomes as the call leaves them. A refusal must keep both.
pub fn replay(
    measure: u64,
    table: &Table,
    answers: &Labelling,
    record: &Record,
) -> Result<(u64, Vec<u64>, Vec<u64>), String> {
    let mut lent = LentTable::lend(table);
    let mut labels = LentLabelling::lend(answers);
    let mut parts = Column::lend("parts", &record.parts);
    let mut received = Column::lend("received", &record.received);
    let mut stock = Column::lend("stock", &record.stock);
    let mut outcomes = Column::lend("outcomes", &record.outcomes);
    let result = unsafe {
        tozbierdu_replay(
            measure,
            table.n,
            lent.heads.pointer(),
            lent.heads.len(),
            lent.own.pointer(),
            lent.own.len(),
            lent.strikes.pointer(),
            lent.strikes.len(),
            lent.spans.pointer(),
            lent.spans.len(),
            lent.tails.pointer(),
            lent.tails.len(),
            labels.weights.pointer(),
            labels.weights.len(),
            labels.depths.pointer(),
            labels.depths.len(),
            labels.edges.pointer(),
            labels.edges.len(),
            labels.pieces.pointer(),
            labels.pieces.len(),
            parts.pointer(),
            parts.len(),
            received.pointer(),
            received.len(),
            stock.pointer(),
            stock.len(),
            outcomes.pointer(),
            outcomes.len(),
        )
    };
    let written = if result == 0 {
        stock.guarded().and(outcomes.guarded())
    } else {
        stock.kept().and(outcomes.kept())
    };
    let read = lent.kept().and(labels.kept()).and(parts.kept()).and(received.kept());
    read.and(written).map_err(|wrong| format!("replay, {wrong}"))?;
    Ok((result, stock.values().to_vec(), outcomes.values().to_vec()))
}
