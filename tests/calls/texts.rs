//! The calls that read and write a table's text, lent between guards like those of `bindings`.

use crate::calls::lending::{Column, LentTable};
use crate::model::Table;

extern "C" {
    fn tozbierdu_read_table(
        text: *const u8,
        text_len: usize,
        heads: *mut u64,
        heads_len: usize,
        own: *mut u64,
        own_len: usize,
        strikes: *mut u64,
        strikes_len: usize,
        spans: *mut u64,
        spans_len: usize,
        tails: *mut u64,
        tails_len: usize,
        header: *mut u64,
        header_len: usize,
    ) -> u64;

    fn tozbierdu_text_column(text: *const u8, text_len: usize) -> u64;

    fn tozbierdu_write_table(
        measure: u64,
        n: u64,
        heads: *const u64,
        heads_len: usize,
        own: *const u64,
        own_len: usize,
        strikes: *const u64,
        strikes_len: usize,
        spans: *const u64,
        spans_len: usize,
        tails: *const u64,
        tails_len: usize,
        room: *mut u8,
        room_len: usize,
    ) -> u64;
}

/// Only a header of as many places is written.
pub const HEADER: usize = 4;

/// The result, and the columns and the header as the call leaves them.
pub struct Reading {
    pub result: u64,
    pub columns: Table,
    pub header: Vec<u64>,
}

/// Reads into the columns of `room`; its n plays no part.
pub fn read_table(text: &[u8], room: &Table, header: &[u64]) -> Result<Reading, String> {
    let mut text = Column::lend("text", text);
    let mut lent = LentTable::lend(room);
    let mut head = Column::lend("header", header);
    let result = unsafe {
        tozbierdu_read_table(
            text.pointer(),
            text.len(),
            lent.heads.pointer(),
            lent.heads.len(),
            lent.own.pointer(),
            lent.own.len(),
            lent.strikes.pointer(),
            lent.strikes.len(),
            lent.spans.pointer(),
            lent.spans.len(),
            lent.tails.pointer(),
            lent.tails.len(),
            head.pointer(),
            head.len(),
        )
    };
    let columns = if result == 0 { lent.guarded() } else { lent.kept() };
    let written = result == 0 && header.len() == HEADER;
    let header = if written { head.guarded() } else { head.kept() };
    text.kept().and(columns).and(header).map_err(|wrong| format!("read_table, {wrong}"))?;
    Ok(Reading { result, columns: lent.table(room.n), header: head.values().to_vec() })
}

/// The column at which a text is refused, 0 if it is not.
pub fn text_column(text: &[u8]) -> Result<u64, String> {
    let mut text = Column::lend("text", text);
    let column = unsafe { tozbierdu_text_column(text.pointer(), text.len()) };
    text.kept().map_err(|wrong| format!("text_column, {wrong}"))?;
    Ok(column)
}

/// The result, and the room as the call leaves it.
pub fn write_table(measure: u64, table: &Table, room: &[u8]) -> Result<(u64, Vec<u8>), String> {
    let mut lent = LentTable::lend(table);
    let mut text = Column::lend("room", room);
    let result = unsafe {
        tozbierdu_write_table(
            measure,
            table.n,
            lent.heads.pointer(),
            lent.heads.len(),
            lent.own.pointer(),
            lent.own.len(),
            lent.strikes.pointer(),
            lent.strikes.len(),
            lent.spans.pointer(),
            lent.spans.len(),
            lent.tails.pointer(),
            lent.tails.len(),
            text.pointer(),
            text.len(),
        )
    };
    let is_refusal = result >> 32 != 0;
    let written = if is_refusal { text.kept() } else { text.guarded() };
    lent.kept().and(written).map_err(|wrong| format!("write_table, {wrong}"))?;
    Ok((result, text.values().to_vec()))
}
