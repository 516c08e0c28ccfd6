//! Shuffling a column's bytes and laying them back.

use crate::calls::lending::Column;
use std::ptr::{null, null_mut};

extern "C" {
    fn tozbierdu_shuffle(own: *const u64, own_len: usize, room: *mut u8, room_len: usize) -> u64;

    fn tozbierdu_unshuffle(
        bytes: *const u8,
        bytes_len: usize,
        own: *mut u64,
        own_len: usize,
    ) -> u64;
}

/// The result, and the room as the call leaves it.
pub fn shuffle(own: &[u64], room: &[u8]) -> Result<(u64, Vec<u8>), String> {
    let mut own = Column::lend("own", own);
    let mut room = Column::lend("room", room);
    let result = unsafe { tozbierdu_shuffle(own.pointer(), own.len(), room.pointer(), room.len()) };
    own.kept().and(room.guarded()).map_err(|wrong| format!("shuffle, {wrong}"))?;
    Ok((result, room.values().to_vec()))
}

/// The result, and the column as the call leaves it.
pub fn unshuffle(bytes: &[u8], own: &[u64]) -> Result<(u64, Vec<u64>), String> {
    let mut bytes = Column::lend("bytes", bytes);
    let mut own = Column::lend("own", own);
    let result =
        unsafe { tozbierdu_unshuffle(bytes.pointer(), bytes.len(), own.pointer(), own.len()) };
    bytes.kept().and(own.guarded()).map_err(|wrong| format!("unshuffle, {wrong}"))?;
    Ok((result, own.values().to_vec()))
}

/// The results of both where nothing is lent: null pointers of length 0.
pub fn of_nothing() -> [u64; 2] {
    unsafe {
        [tozbierdu_shuffle(null(), 0, null_mut(), 0), tozbierdu_unshuffle(null(), 0, null_mut(), 0)]
    }
}
