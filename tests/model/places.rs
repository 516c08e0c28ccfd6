//! Where a text breaks, by the whole-text reader alone: a beginning can still become a permitted text
//! exactly if that reader accepts it with one of a few endings. Nothing here reads a field.

use crate::model::text::parse;

/// From whatever place of a permitted text on, one of these ends it: behind an LF, a number, a space
/// or a dash, or a head; within the first words; within the word of a measure.
const ENDINGS: [&str; 18] = [
    "",
    "\n",
    "0\n",
    " 0\n",
    "parts 0\n",
    "arts 0\n",
    "rts 0\n",
    "ts 0\n",
    "s 0\n",
    " cost\n",
    "cost\n",
    "ost\n",
    "st\n",
    "t\n",
    "rade\n",
    "ade\n",
    "de\n",
    "e\n",
];

pub fn begins(beginning: &[u8]) -> bool {
    let permitted = |ending: &&str| parse(&[beginning, ending.as_bytes()].concat()).is_ok();
    ENDINGS.iter().any(|ending| permitted(&ending))
}

/// How many bytes stand before the first one that can't; all of a text that merely ends too early.
/// What begins no permitted text begins none with more bytes, so the place is halved in on.
fn sound_bytes(text: &[u8]) -> usize {
    let (mut sound, mut behind) = (0, text.len() + 1);
    while behind - sound > 1 {
        let middle = sound + (behind - sound) / 2;
        if begins(&text[..middle]) {
            sound = middle;
        } else {
            behind = middle;
        }
    }
    sound
}

/// The same by trying every beginning, the shortest first.
fn sound_bytes_one_by_one(text: &[u8]) -> usize {
    (1..=text.len())
        .find(|&length| !begins(&text[..length]))
        .map_or(text.len(), |length| length - 1)
}

/// Line and column of the byte behind these, both counted from 1.
pub fn behind(bytes: &[u8]) -> (u64, u64) {
    let lines: Vec<&[u8]> = bytes.split(|&byte| byte == b'\n').collect();
    (lines.len() as u64, lines[lines.len() - 1].len() as u64 + 1)
}

/// Line and column that refuse a text; None if it is permitted.
pub fn place(text: &[u8]) -> Option<(u64, u64)> {
    parse(text).err().map(|_| behind(&text[..sound_bytes(text)]))
}

pub fn place_one_by_one(text: &[u8]) -> Option<(u64, u64)> {
    parse(text).err().map(|_| behind(&text[..sound_bytes_one_by_one(text)]))
}
