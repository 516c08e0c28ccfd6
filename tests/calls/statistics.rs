//! Summarizing a sample.

use crate::calls::lending::Column;

extern "C" {
    fn tozbierdu_summarize(
        results: *const u64,
        results_len: usize,
        room: *mut u64,
        room_len: usize,
    ) -> u64;
}

/// The result, and the room as the call leaves it.
pub fn summarize(results: &[u64], room: &[u64]) -> Result<(u64, Vec<u64>), String> {
    let mut lent = Column::lend("results", results);
    let mut room = Column::lend("room", room);
    let result =
        unsafe { tozbierdu_summarize(lent.pointer(), lent.len(), room.pointer(), room.len()) };
    lent.kept().and(room.guarded()).map_err(|wrong| format!("summarize, {wrong}"))?;
    Ok((result, room.values().to_vec()))
}
