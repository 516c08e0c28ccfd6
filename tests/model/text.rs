//! The text read and written a second way, to compare with: cut at each LF into lines and at each
//! space into words, and every word judged by itself. No cursor, and no number built up on the way.

use crate::model::solver::{refusal, table_result};
use crate::model::*;

/// What a permitted text says: its measure, and the table without gaps. Err is the first text line
/// that breaks a rule.
pub type Parsed = Result<(u64, Table), u64>;

pub fn parse(text: &[u8]) -> Parsed {
    let mut lines: Vec<&[u8]> = text.split(|&byte| byte == b'\n').collect();
    // What is behind the last LF; if there is no LF, that is the whole text.
    let rest = lines.pop().unwrap_or_default();
    let (n, measure) = lines.first().and_then(|line| first_line(line)).ok_or(1u64)?;
    let mut table = Table::new(n);
    for (before, line) in lines.iter().enumerate().skip(1) {
        let text_line = before as u64 + 1;
        let (head, own, mark, tail) = table_line(line, n).ok_or(text_line)?;
        table.push_marked(head, own, mark, &tail);
        if table.edges() > MOST_EDGES || table.tails.len() > MOST_TAILS {
            return Err(text_line);
        }
    }
    if rest.is_empty() {
        Ok((measure, table))
    } else {
        Err(lines.len() as u64 + 1)
    }
}

fn words(line: &[u8]) -> Vec<&[u8]> {
    line.split(|&byte| byte == b' ').collect()
}

/// n and the measure.
fn first_line(line: &[u8]) -> Option<(u64, u64)> {
    match words(line)[..] {
        [b"parts", n] => Some((number(n, MOST_VERTICES)?, DAYS)),
        [b"parts", n, b"cost"] => Some((number(n, MOST_VERTICES)?, COST)),
        [b"parts", n, b"grade"] => Some((number(n, MOST_VERTICES)?, GRADE)),
        _ => None,
    }
}

/// Head, own weight, mark and tail.
fn table_line(line: &[u8], n: u64) -> Option<(u64, u64, u64, Vec<u64>)> {
    let words = words(line);
    let (head, own, tail) = match &words[..] {
        [head, own, tail @ ..] => (head, own, tail),
        _ => return None,
    };
    let vertex = |word: &[u8]| number(word, n.checked_sub(1)?);
    // What is behind the dash is a number like any other, and must be there.
    let (mark, figure) = match own.strip_prefix(b"-") {
        Some(kept) => (STRUCK, kept),
        None => (STANDS, *own),
    };
    let tail: Option<Vec<u64>> = tail.iter().map(|word| vertex(word)).collect();
    let tail = tail.filter(|tail| tail.len() <= LONGEST_TAIL)?;
    Some((vertex(head)?, number(figure, GREATEST)?, mark, tail))
}

/// A number from 0 to `most`: the one that is spelt just like the word.
fn number(word: &[u8], most: u64) -> Option<u64> {
    let spelt: u64 = std::str::from_utf8(word).ok()?.parse().ok()?;
    (spelt.to_string().as_bytes() == word && spelt <= most).then_some(spelt)
}

/// The text of an accepted table.
pub fn written(measure: u64, table: &Table) -> Vec<u8> {
    let word = [" cost", "", " grade"][measure as usize];
    let mut text = format!("parts {}{word}\n", table.n);
    for edge in 0..table.edges() {
        let dash = if table.is_live(edge) { "" } else { "-" };
        let own = format!("{dash}{}", table.own[edge]);
        let mut words = vec![table.heads[edge].to_string(), own];
        words.extend(table.tail(edge).iter().map(u64::to_string));
        text += &words.join(" ");
        text.push('\n');
    }
    text.into_bytes()
}

/// The same hyperedges with no gaps between them.
pub fn closed(table: &Table) -> Table {
    let mut closed = Table::new(table.n);
    for edge in 0..table.edges() {
        let (own, mark) = (table.own[edge], table.strikes[edge]);
        closed.push_marked(table.heads[edge], own, mark, table.tail(edge));
    }
    closed
}

/// Places that a table without gaps takes in heads, own weights, strikes, spans and tails.
pub fn places(table: &Table) -> [usize; 5] {
    let edges = table.edges();
    [edges, edges, edges, 2 * edges, table.tails.len()]
}

/// What reading must return.
pub fn read_result(parsed: &Parsed, room: &Table) -> u64 {
    let lent = room.columns().map(Vec::len);
    match parsed {
        Err(line) => refusal(14, *line),
        Ok((_, table)) if places(table).iter().zip(lent).any(|(&taken, lent)| taken > lent) => {
            refusal(15, 0)
        }
        Ok(_) => 0,
    }
}

/// What writing into a room of `length` bytes must return.
pub fn write_result(measure: u64, table: &Table, length: usize) -> u64 {
    if !MEASURES.contains(&measure) {
        return refusal(16, 0);
    }
    let refused = table_result(table);
    if refused != 0 {
        return refused;
    }
    let text = written(measure, table);
    if text.len() <= length {
        text.len() as u64
    } else {
        refusal(15, 0)
    }
}
