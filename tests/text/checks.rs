//! One case of reading or writing a text, judged by the tests' own reader and writer, and the rooms
//! that are lent for it.

use crate::calls::texts::{read_table, text_column, write_table, HEADER};
use crate::model::places::place;
use crate::model::text::*;
use crate::model::*;
use crate::random::Rng;
use crate::trial::{expect, Verdict};

/// Columns of these lengths in which every write shows: no number of a text has the highest bit.
pub fn room(rng: &mut Rng, lengths: [usize; 5]) -> Table {
    let [heads, own, strikes, spans, tails] = lengths.map(|length| foreign(rng, length));
    Table { n: 0, heads, own, strikes, spans, tails }
}

pub fn header(rng: &mut Rng) -> Vec<u64> {
    foreign(rng, HEADER)
}

pub fn foreign(rng: &mut Rng, length: usize) -> Vec<u64> {
    (0..length).map(|_| rng.next() | 1 << 63).collect()
}

/// A room for a text, in which no byte is ASCII.
pub fn bytes(rng: &mut Rng, length: usize) -> Vec<u8> {
    (0..length).map(|_| rng.next() as u8 | 0x80).collect()
}

/// Reads into columns that have what a permitted text takes and a few places more. For a broken
/// text they are mostly long enough to be written before that is found, and sometimes too short.
pub fn reads(text: &[u8], rng: &mut Rng) -> Verdict {
    let lines = text.iter().filter(|&&byte| byte == b'\n').count();
    let lengths = match parse(text) {
        Ok((_, table)) => places(&table).map(|taken| taken + rng.index(4)),
        Err(_) if rng.chance(20) => [(); 5].map(|()| rng.index(lines + 1)),
        Err(_) => [lines, lines, lines, 2 * lines, MOST_TAILS.min(LONGEST_TAIL * lines)],
    };
    let (room, header) = (room(rng, lengths), header(rng));
    reads_into(text, &room, &header)
}

/// Holds if a text is refused at this line and column, and a permitted one, which has no place, is
/// not refused.
pub fn refused_at(text: &[u8], place: Option<(u64, u64)>) -> Verdict {
    let (line, column) = place.unwrap_or((0, 0));
    expect("the line found by the tests' own reader", parse(text).err().unwrap_or(0), line)?;
    expect("text_column", text_column(text)?, column)
}

/// Holds if reading returns, writes and leaves alone what it should, and refuses a broken text at
/// its place; a text that is accepted must be given back by writing.
pub fn reads_into(text: &[u8], room: &Table, header: &[u64]) -> Verdict {
    let parsed = parse(text);
    let verdict = || {
        refused_at(text, place(text))?;
        let reading = read_table(text, room, header)?;
        expect("read_table", reading.result, read_result(&parsed, room))?;
        let (measure, table) = match parsed {
            Ok(parsed) if reading.result == 0 => parsed,
            _ => return Ok(()),
        };
        filled("heads", &reading.columns.heads, &table.heads, &room.heads)?;
        filled("own", &reading.columns.own, &table.own, &room.own)?;
        filled("strikes", &reading.columns.strikes, &table.strikes, &room.strikes)?;
        filled("spans", &reading.columns.spans, &table.spans, &room.spans)?;
        filled("tails", &reading.columns.tails, &table.tails, &room.tails)?;
        if header.len() == HEADER {
            let [edges, .., tails] = places(&table).map(|taken| taken as u64);
            filled("header", &reading.header, &[table.n, measure, edges, tails], header)?;
        }
        gives_back(measure, &table, text)
    };
    verdict().map_err(|wrong| format!("{wrong}; {}", describe(text)))
}

/// `got` starts with `values`, and what is behind them is as it was lent.
fn filled<T: Copy + PartialEq>(name: &str, got: &[T], values: &[T], lent: &[T]) -> Verdict {
    let wanted = [values, &lent[values.len()..]].concat();
    match (0..wanted.len()).find(|&place| got.get(place) != Some(&wanted[place])) {
        None => Ok(()),
        Some(place) if place < values.len() => Err(format!("{name}: place {place} is wrong")),
        Some(place) => Err(format!("{name}: place {place} must keep its bytes")),
    }
}

/// Writing into a room just long enough makes this very text.
fn gives_back(measure: u64, table: &Table, text: &[u8]) -> Verdict {
    let lent = vec![0xFF; text.len()];
    let (result, left) = write_table(measure, table, &lent)?;
    expect("write_table after read_table", result, text.len() as u64)?;
    filled("room", &left, text, &lent)
}

/// Holds if writing returns, writes and leaves alone what it should.
pub fn writes_into(measure: u64, table: &Table, room: &[u8]) -> Verdict {
    let verdict = || {
        let (result, left) = write_table(measure, table, room)?;
        expect("write_table", result, write_result(measure, table, room.len()))?;
        if result >> 32 != 0 {
            return Ok(());
        }
        filled("room", &left, &written(measure, table), room)
    };
    verdict().map_err(|wrong| {
        let (length, table) = (room.len(), table.describe());
        format!("{wrong}; measure {measure}, room of {length} bytes, {table}")
    })
}

/// The text on one line, its beginning if it is long.
pub fn describe(text: &[u8]) -> String {
    let shown = &text[..text.len().min(300)];
    format!("text of {} bytes: \"{}\"", text.len(), shown.escape_ascii())
}
