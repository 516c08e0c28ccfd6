//! The calls of the library. Every column is lent between guard words; a wrapper answers Err if a
//! guard has changed, or a column that the call must leave as it is.

pub mod growth;
pub mod inventory;
pub mod lending;
pub mod ordered;
pub mod shuffle;
pub mod statistics;
pub mod texts;

use crate::calls::lending::{Column, LentLabelling, LentTable};
use crate::model::{Labelling, Table, STANDS, STRUCK};

extern "C" {
    fn tozbierdu_settle(
        measure: u64,
        n: u64,
        heads: *const u64,
        heads_len: usize,
        own: *const u64,
        own_len: usize,
        strikes: *const u64,
        strikes_len: usize,
        spans: *const u64,
        spans_len: usize,
        tails: *const u64,
        tails_len: usize,
        weights: *mut u64,
        weights_len: usize,
        depths: *mut u64,
        depths_len: usize,
        edges: *mut u64,
        edges_len: usize,
        pieces: *mut u64,
        pieces_len: usize,
    ) -> u64;

    fn tozbierdu_reprice(
        measure: u64,
        n: u64,
        heads: *const u64,
        heads_len: usize,
        own: *mut u64,
        own_len: usize,
        strikes: *const u64,
        strikes_len: usize,
        spans: *const u64,
        spans_len: usize,
        tails: *const u64,
        tails_len: usize,
        weights: *mut u64,
        weights_len: usize,
        depths: *mut u64,
        depths_len: usize,
        edges: *mut u64,
        edges_len: usize,
        pieces: *mut u64,
        pieces_len: usize,
        line: u64,
        figure: u64,
    ) -> u64;

    fn tozbierdu_bill(
        measure: u64,
        n: u64,
        heads: *const u64,
        heads_len: usize,
        own: *const u64,
        own_len: usize,
        strikes: *const u64,
        strikes_len: usize,
        spans: *const u64,
        spans_len: usize,
        tails: *const u64,
        tails_len: usize,
        weights: *const u64,
        weights_len: usize,
        depths: *const u64,
        depths_len: usize,
        edges: *const u64,
        edges_len: usize,
        pieces: *const u64,
        pieces_len: usize,
        part: u64,
        room: *mut u64,
        room_len: usize,
    ) -> u64;

    fn tozbierdu_check_table(
        n: u64,
        heads: *const u64,
        heads_len: usize,
        own: *const u64,
        own_len: usize,
        strikes: *const u64,
        strikes_len: usize,
        spans: *const u64,
        spans_len: usize,
        tails: *const u64,
        tails_len: usize,
    ) -> u64;

    fn tozbierdu_check_answers(
        measure: u64,
        n: u64,
        heads: *const u64,
        heads_len: usize,
        own: *const u64,
        own_len: usize,
        strikes: *const u64,
        strikes_len: usize,
        spans: *const u64,
        spans_len: usize,
        tails: *const u64,
        tails_len: usize,
        weights: *const u64,
        weights_len: usize,
        depths: *const u64,
        depths_len: usize,
        edges: *const u64,
        edges_len: usize,
        pieces: *const u64,
        pieces_len: usize,
    ) -> u64;

    fn tozbierdu_entry(
        weights: *const u64,
        weights_len: usize,
        depths: *const u64,
        depths_len: usize,
        edges: *const u64,
        edges_len: usize,
        pieces: *const u64,
        pieces_len: usize,
        vertex: u64,
        entry: *mut u64,
        entry_len: usize,
    ) -> u64;

    fn tozbierdu_strike(
        measure: u64,
        n: u64,
        heads: *const u64,
        heads_len: usize,
        own: *const u64,
        own_len: usize,
        strikes: *mut u64,
        strikes_len: usize,
        spans: *const u64,
        spans_len: usize,
        tails: *const u64,
        tails_len: usize,
        weights: *mut u64,
        weights_len: usize,
        depths: *mut u64,
        depths_len: usize,
        edges: *mut u64,
        edges_len: usize,
        pieces: *mut u64,
        pieces_len: usize,
        line: u64,
    ) -> u64;

    fn tozbierdu_restore(
        measure: u64,
        n: u64,
        heads: *const u64,
        heads_len: usize,
        own: *const u64,
        own_len: usize,
        strikes: *mut u64,
        strikes_len: usize,
        spans: *const u64,
        spans_len: usize,
        tails: *const u64,
        tails_len: usize,
        weights: *mut u64,
        weights_len: usize,
        depths: *mut u64,
        depths_len: usize,
        edges: *mut u64,
        edges_len: usize,
        pieces: *mut u64,
        pieces_len: usize,
        line: u64,
    ) -> u64;
}

pub fn check_table(table: &Table) -> Result<u64, String> {
    let mut lent = LentTable::lend(table);
    let result = unsafe {
        tozbierdu_check_table(
            table.n,
            lent.heads.pointer(),
            lent.heads.len(),
            lent.own.pointer(),
            lent.own.len(),
            lent.strikes.pointer(),
            lent.strikes.len(),
            lent.spans.pointer(),
            lent.spans.len(),
            lent.tails.pointer(),
            lent.tails.len(),
        )
    };
    lent.kept().map_err(|wrong| format!("check_table, {wrong}"))?;
    Ok(result)
}

/// The result, and the answer columns as the call leaves them.
pub fn settle(
    measure: u64,
    table: &Table,
    answers: &Labelling,
) -> Result<(u64, Labelling), String> {
    let mut lent = LentTable::lend(table);
    let mut room = LentLabelling::lend(answers);
    let result = unsafe {
        tozbierdu_settle(
            measure,
            table.n,
            lent.heads.pointer(),
            lent.heads.len(),
            lent.own.pointer(),
            lent.own.len(),
            lent.strikes.pointer(),
            lent.strikes.len(),
            lent.spans.pointer(),
            lent.spans.len(),
            lent.tails.pointer(),
            lent.tails.len(),
            room.weights.pointer(),
            room.weights.len(),
            room.depths.pointer(),
            room.depths.len(),
            room.edges.pointer(),
            room.edges.len(),
            room.pieces.pointer(),
            room.pieces.len(),
        )
    };
    let columns = if result == 0 { room.guarded() } else { room.kept() };
    lent.kept().and(columns).map_err(|wrong| format!("settle, {wrong}"))?;
    Ok((result, room.labelling()))
}

pub fn check_answers(measure: u64, table: &Table, answers: &Labelling) -> Result<u64, String> {
    let mut lent = LentTable::lend(table);
    let mut labels = LentLabelling::lend(answers);
    let result = unsafe {
        tozbierdu_check_answers(
            measure,
            table.n,
            lent.heads.pointer(),
            lent.heads.len(),
            lent.own.pointer(),
            lent.own.len(),
            lent.strikes.pointer(),
            lent.strikes.len(),
            lent.spans.pointer(),
            lent.spans.len(),
            lent.tails.pointer(),
            lent.tails.len(),
            labels.weights.pointer(),
            labels.weights.len(),
            labels.depths.pointer(),
            labels.depths.len(),
            labels.edges.pointer(),
            labels.edges.len(),
            labels.pieces.pointer(),
            labels.pieces.len(),
        )
    };
    lent.kept().and(labels.kept()).map_err(|wrong| format!("check_answers, {wrong}"))?;
    Ok(result)
}

/// The result, and the room as the call leaves it. A refusal must keep the whole room.
pub fn bill(
    measure: u64,
    table: &Table,
    answers: &Labelling,
    part: u64,
    room: &[u64],
) -> Result<(u64, Vec<u64>), String> {
    let mut lent = LentTable::lend(table);
    let mut labels = LentLabelling::lend(answers);
    let mut places = Column::lend("room", room);
    let result = unsafe {
        tozbierdu_bill(
            measure,
            table.n,
            lent.heads.pointer(),
            lent.heads.len(),
            lent.own.pointer(),
            lent.own.len(),
            lent.strikes.pointer(),
            lent.strikes.len(),
            lent.spans.pointer(),
            lent.spans.len(),
            lent.tails.pointer(),
            lent.tails.len(),
            labels.weights.pointer(),
            labels.weights.len(),
            labels.depths.pointer(),
            labels.depths.len(),
            labels.edges.pointer(),
            labels.edges.len(),
            labels.pieces.pointer(),
            labels.pieces.len(),
            part,
            places.pointer(),
            places.len(),
        )
    };
    let written = if result >> 32 == 0 { places.guarded() } else { places.kept() };
    lent.kept().and(labels.kept()).and(written).map_err(|wrong| format!("bill, {wrong}"))?;
    Ok((result, places.values().to_vec()))
}

/// The state's number, and the room as the call leaves it. Only a room of 4 places is written.
pub fn entry(answers: &Labelling, vertex: u64, room: &[u64]) -> Result<(u64, Vec<u64>), String> {
    let mut labels = LentLabelling::lend(answers);
    let mut entry = Column::lend("entry", room);
    let state = unsafe {
        tozbierdu_entry(
            labels.weights.pointer(),
            labels.weights.len(),
            labels.depths.pointer(),
            labels.depths.len(),
            labels.edges.pointer(),
            labels.edges.len(),
            labels.pieces.pointer(),
            labels.pieces.len(),
            vertex,
            entry.pointer(),
            entry.len(),
        )
    };
    let written = if room.len() == 4 { entry.guarded() } else { entry.kept() };
    labels.kept().and(written).map_err(|wrong| format!("entry, {wrong}"))?;
    Ok((state, entry.values().to_vec()))
}

/// What a change leaves: its result, the own weights, the strikes and the answer columns.
pub struct Changed {
    pub result: u64,
    pub own: Vec<u64>,
    pub strikes: Vec<u64>,
    pub answers: Labelling,
}

pub fn reprice(
    measure: u64,
    table: &Table,
    answers: &Labelling,
    edge: u64,
    own: u64,
) -> Result<Changed, String> {
    let mut lent = LentTable::lend(table);
    let mut room = LentLabelling::lend(answers);
    let result = unsafe {
        tozbierdu_reprice(
            measure,
            table.n,
            lent.heads.pointer(),
            lent.heads.len(),
            lent.own.pointer(),
            lent.own.len(),
            lent.strikes.pointer(),
            lent.strikes.len(),
            lent.spans.pointer(),
            lent.spans.len(),
            lent.tails.pointer(),
            lent.tails.len(),
            room.weights.pointer(),
            room.weights.len(),
            room.depths.pointer(),
            room.depths.len(),
            room.edges.pointer(),
            room.edges.len(),
            room.pieces.pointer(),
            room.pieces.len(),
            edge,
            own,
        )
    };
    changed(result, [Some(edge), None], &lent, &room).map_err(|wrong| format!("reprice, {wrong}"))
}

pub fn strike(
    measure: u64,
    table: &Table,
    answers: &Labelling,
    edge: u64,
) -> Result<Changed, String> {
    marked(STRUCK, measure, table, answers, edge).map_err(|wrong| format!("strike, {wrong}"))
}

pub fn restore(
    measure: u64,
    table: &Table,
    answers: &Labelling,
    edge: u64,
) -> Result<Changed, String> {
    marked(STANDS, measure, table, answers, edge).map_err(|wrong| format!("restore, {wrong}"))
}

/// A change of one mark, by the call that makes it so.
fn marked(
    mark: u64,
    measure: u64,
    table: &Table,
    answers: &Labelling,
    edge: u64,
) -> Result<Changed, String> {
    let mut lent = LentTable::lend(table);
    let mut room = LentLabelling::lend(answers);
    let call = if mark == STRUCK { tozbierdu_strike } else { tozbierdu_restore };
    let result = unsafe {
        call(
            measure,
            table.n,
            lent.heads.pointer(),
            lent.heads.len(),
            lent.own.pointer(),
            lent.own.len(),
            lent.strikes.pointer(),
            lent.strikes.len(),
            lent.spans.pointer(),
            lent.spans.len(),
            lent.tails.pointer(),
            lent.tails.len(),
            room.weights.pointer(),
            room.weights.len(),
            room.depths.pointer(),
            room.depths.len(),
            room.edges.pointer(),
            room.edges.len(),
            room.pieces.pointer(),
            room.pieces.len(),
            edge,
        )
    };
    changed(result, [None, Some(edge)], &lent, &room)
}

/// Accepted, it writes the answers and one place, of the own weights or of the strikes; refused, it
/// writes nothing.
fn changed(
    result: u64,
    written: [Option<u64>; 2],
    lent: &LentTable,
    room: &LentLabelling,
) -> Result<Changed, String> {
    if result == 0 {
        lent.kept_but(written).and(room.guarded())?;
    } else {
        lent.kept().and(room.kept())?;
    }
    let [own, strikes] = [&lent.own, &lent.strikes].map(|column| column.values().to_vec());
    Ok(Changed { result, own, strikes, answers: room.labelling() })
}
