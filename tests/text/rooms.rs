//! Columns, headers and rooms of every length lent for a text: too short, just long enough, longer.

use crate::model::solver::refusal;
use crate::model::text::{closed, parse, places, read_result, write_result, written};
use crate::model::*;
use crate::random::Rng;
use crate::tables;
use crate::tables::limits::limits;
use crate::text::checks::*;
use crate::text::{longest_table, WORKED};
use crate::trial::{expect, Outcome, Test, Trial, Verdict};

pub const TESTS: &[Test] = &[
    Test { name: "rooms/stated", run: stated },
    Test { name: "rooms/columns", run: columns },
    Test { name: "rooms/limits", run: at_the_limits },
    Test { name: "rooms/longer-than-limits", run: longer_than_limits },
    Test { name: "rooms/broken-first", run: broken_first },
    Test { name: "rooms/header", run: header_lengths },
    Test { name: "rooms/bytes", run: byte_rooms },
    Test { name: "rooms/each-length", run: each_length },
];

/// Reads into columns of these lengths with a result that is stated.
fn reads_to(text: &[u8], lengths: [usize; 5], wanted: u64, rng: &mut Rng) -> Verdict {
    let (room, header) = (room(rng, lengths), header(rng));
    expect("the tests' own reader", read_result(&parse(text), &room), wanted)?;
    reads_into(text, &room, &header)
}

/// Writes into rooms one byte short, just long enough and longer.
fn writes_at_the_end(measure: u64, table: &Table, rng: &mut Rng) -> Verdict {
    let length = written(measure, table).len();
    for (room, wanted) in [
        (length - 1, refusal(15, 0)),
        (rng.index(length), refusal(15, 0)),
        (0, refusal(15, 0)),
        (length, length as u64),
        (length + 1, length as u64),
        (length + 500, length as u64),
    ] {
        expect("the tests' own writer", write_result(measure, table, room), wanted)?;
        writes_into(measure, table, &bytes(rng, room))?;
    }
    Ok(())
}

/// 6 lines and 6 listed: each column one place short, and all of them just long enough.
fn stated(trial: &Trial) -> Outcome {
    let mut rng = trial.rng();
    let text = WORKED.as_bytes();
    let just = [6, 6, 6, 12, 6];
    reads_to(text, just, 0, &mut rng)?;
    reads_to(text, [0; 5], refusal(15, 0), &mut rng)?;
    let mut cases = 2;
    for column in 0..just.len() {
        for short in 0..just[column] {
            let mut lengths = just.map(|length| length + rng.index(3));
            lengths[column] = short;
            reads_to(text, lengths, refusal(15, 0), &mut rng)?;
            cases += 1;
        }
    }
    for text in ["parts 0\n", "parts 9 cost\n"] {
        reads_to(text.as_bytes(), [0; 5], 0, &mut rng)?;
        cases += 1;
    }
    Ok(cases)
}

/// Each column one place short, just long enough or longer, in every combination.
fn columns(trial: &Trial) -> Outcome {
    trial.cases(trial.count / 10, |rng| {
        let table = closed(&tables::any(rng));
        let text = written(rng.pick(&MEASURES), &table);
        for code in 0..3usize.pow(5) {
            let ways = [code % 3, code / 3 % 3, code / 9 % 3, code / 27 % 3, code / 81];
            let taken = places(&table);
            let length = |column: usize| (taken[column] + ways[column]).saturating_sub(1);
            let lengths = [0, 1, 2, 3, 4].map(length);
            let is_short = lengths.iter().zip(taken).any(|(&lent, taken)| lent < taken);
            let wanted = if is_short { refusal(15, 0) } else { 0 };
            reads_to(&text, lengths, wanted, rng)?;
        }
        Ok(())
    })
}

fn at_the_limits(trial: &Trial) -> Outcome {
    let mut rng = trial.rng();
    let mut tables = limits(&mut rng);
    tables.push(("the longest text", longest_table()));
    for (name, table) in &tables {
        let (measure, table) = (rng.pick(&MEASURES), closed(table));
        let text = written(measure, &table);
        let taken = places(&table);
        let mut verdict = || {
            reads_to(&text, taken, 0, &mut rng)?;
            for column in (0..taken.len()).filter(|&column| taken[column] > 0) {
                let mut lengths = taken.map(|length| length + 1);
                lengths[column] = taken[column] - 1;
                reads_to(&text, lengths, refusal(15, 0), &mut rng)?;
            }
            writes_at_the_end(measure, &table, &mut rng)
        };
        verdict().map_err(|wrong| format!("{name}: {wrong}"))?;
    }
    Ok(tables.len() as u64)
}

/// A lent column may be longer than any table's.
fn longer_than_limits(trial: &Trial) -> Outcome {
    let mut rng = trial.rng();
    let lines = MOST_EDGES;
    let longer = [lines + 1, 2 * lines, lines + 3, 3 * lines, 2 * MOST_TAILS];
    let full = written(COST, &longest_table());
    for text in ["parts 0\n".as_bytes(), WORKED.as_bytes(), &full] {
        reads_to(text, longer, 0, &mut rng)?;
    }
    Ok(3)
}

/// A text that breaks a rule late is refused for that, whatever columns are lent.
fn broken_first(trial: &Trial) -> Outcome {
    trial.cases(trial.count, |rng| {
        let mut table = closed(&tables::any(rng));
        table.push(table.n - 1, 0, &[]);
        let mut text = written(rng.pick(&MEASURES), &table);
        // The last line has no LF.
        text.pop();
        let taken = places(&table);
        let wanted = refusal(14, table.edges() as u64 + 1);
        for lengths in [taken, [0; 5], taken.map(|length| rng.index(length + 1))] {
            reads_to(&text, lengths, wanted, rng)?;
        }
        Ok(())
    })
}

/// Headers of other lengths than 4 are left alone, and every header on a refusal.
fn header_lengths(trial: &Trial) -> Outcome {
    let mut rng = trial.rng();
    let texts = [WORKED, "parts 7 cost\n3 -9 6\n", "parts 0\n", "parts 5\n0 0\n5 0\n", ""];
    let mut cases = 0;
    for text in texts {
        for length in 0..10 {
            for lengths in [[20; 5], [0; 5]] {
                let (room, header) = (room(&mut rng, lengths), foreign(&mut rng, length));
                reads_into(text.as_bytes(), &room, &header)?;
                cases += 1;
            }
        }
    }
    Ok(cases)
}

fn byte_rooms(trial: &Trial) -> Outcome {
    trial.cases(trial.count, |rng| {
        let table = tables::any(rng);
        writes_at_the_end(rng.pick(&MEASURES), &table, rng)
    })
}

/// A room of every length up to the text's own and a few more.
fn each_length(trial: &Trial) -> Outcome {
    trial.cases(trial.count / 20, |rng| {
        let table = tables::random(rng, &tables::TINY);
        let measure = rng.pick(&MEASURES);
        let length = written(measure, &table).len();
        (0..length + 4).try_for_each(|room| writes_into(measure, &table, &bytes(rng, room)))
    })
}
