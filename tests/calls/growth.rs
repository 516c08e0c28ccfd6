//! Indexing a table and appending a line.

use crate::calls::lending::{Column, LentLabelling, LentTable};
use crate::model::growth::{Growth, Index};
use crate::model::Table;

extern "C" {
    fn tozbierdu_index_table(
        n: u64,
        heads: *const u64,
        heads_len: usize,
        own: *const u64,
        own_len: usize,
        strikes: *const u64,
        strikes_len: usize,
        spans: *const u64,
        spans_len: usize,
        tails: *const u64,
        tails_len: usize,
        index: *mut u64,
        index_len: usize,
        list: *mut u64,
        list_len: usize,
    ) -> u64;

    fn tozbierdu_append(
        measure: u64,
        n: u64,
        heads: *mut u64,
        heads_len: usize,
        own: *mut u64,
        own_len: usize,
        strikes: *mut u64,
        strikes_len: usize,
        spans: *mut u64,
        spans_len: usize,
        tails: *mut u64,
        tails_len: usize,
        lines: u64,
        listed: u64,
        weights: *mut u64,
        weights_len: usize,
        depths: *mut u64,
        depths_len: usize,
        edges: *mut u64,
        edges_len: usize,
        pieces: *mut u64,
        pieces_len: usize,
        index: *mut u64,
        index_len: usize,
        list: *mut u64,
        list_len: usize,
        head: u64,
        figure: u64,
        mark: u64,
        needed: *const u64,
        needed_len: usize,
        counts: *mut u64,
        counts_len: usize,
    ) -> u64;
}

/// The result, and the two columns as the call leaves them.
pub fn index_table(table: &Table, index: &Index) -> Result<(u64, Index), String> {
    let mut lent = LentTable::lend(table);
    let mut pairs = Column::lend("index", &index.pairs);
    let mut list = Column::lend("list", &index.list);
    let result = unsafe {
        tozbierdu_index_table(
            table.n,
            lent.heads.pointer(),
            lent.heads.len(),
            lent.own.pointer(),
            lent.own.len(),
            lent.strikes.pointer(),
            lent.strikes.len(),
            lent.spans.pointer(),
            lent.spans.len(),
            lent.tails.pointer(),
            lent.tails.len(),
            pairs.pointer(),
            pairs.len(),
            list.pointer(),
            list.len(),
        )
    };
    let guarded = pairs.guarded().and(list.guarded());
    lent.kept().and(guarded).map_err(|wrong| format!("index_table, {wrong}"))?;
    Ok((result, Index { pairs: pairs.values().to_vec(), list: list.values().to_vec() }))
}

/// The result, and all that was lent as the call leaves it: on acceptance with the new counts.
pub fn append(growth: &Growth) -> Result<(u64, Growth), String> {
    let mut lent = LentTable::lend(&growth.table);
    let mut room = LentLabelling::lend(&growth.answers);
    let mut pairs = Column::lend("index", &growth.index.pairs);
    let mut list = Column::lend("list", &growth.index.list);
    let mut needed = Column::lend("needed", &growth.needed);
    let places = [growth.lines, growth.listed];
    let mut counts = Column::lend("counts", &places);
    let result = unsafe {
        tozbierdu_append(
            growth.measure,
            growth.table.n,
            lent.heads.pointer(),
            lent.heads.len(),
            lent.own.pointer(),
            lent.own.len(),
            lent.strikes.pointer(),
            lent.strikes.len(),
            lent.spans.pointer(),
            lent.spans.len(),
            lent.tails.pointer(),
            lent.tails.len(),
            growth.lines,
            growth.listed,
            room.weights.pointer(),
            room.weights.len(),
            room.depths.pointer(),
            room.depths.len(),
            room.edges.pointer(),
            room.edges.len(),
            room.pieces.pointer(),
            room.pieces.len(),
            pairs.pointer(),
            pairs.len(),
            list.pointer(),
            list.len(),
            growth.head,
            growth.figure,
            growth.mark,
            needed.pointer(),
            needed.len(),
            counts.pointer(),
            counts.len(),
        )
    };
    let columns = lent.guarded().and(room.guarded()).and(pairs.guarded()).and(list.guarded());
    let rest = needed.kept().and(counts.guarded());
    columns.and(rest).map_err(|wrong| format!("append, {wrong}"))?;
    let left = Growth {
        table: lent.table(growth.table.n),
        lines: counts.values()[0],
        listed: counts.values()[1],
        answers: room.labelling(),
        index: Index { pairs: pairs.values().to_vec(), list: list.values().to_vec() },
        ..growth.clone()
    };
    Ok((result, left))
}
