//! The longest bill, the longest text, the longest input and the largest tables.

use crate::desk::replies::{changes, prints, replies, Ask, MOST_INPUT, MOST_LINES};
use crate::model::solver::{bill_lengths, solve};
use crate::model::text::{closed, written};
use crate::model::*;
use crate::settle::large;
use crate::trial::{expect, Outcome, Test, Trial, Verdict};

pub const TESTS: &[Test] = &[
    Test { name: "desk-limits/bill", run: longest_bill },
    Test { name: "desk-limits/text", run: longest_text },
    Test { name: "desk-limits/input", run: longest_input },
    Test { name: "desk-limits/lines", run: most_lines },
    Test { name: "desk-limits/listed", run: most_listed },
    Test { name: "desk-limits/large", run: large_tables },
];

/// The reply is a refusal by this number, at place 0, as the model says too.
fn refuses(measure: u64, table: &Table, ask: &Ask, number: u64) -> Verdict {
    let text = written(measure, table);
    prints(&text, ask, format!("refused {number} 0\n").as_bytes())?;
    replies(&text, ask).map(|_| ())
}

/// The reply is no refusal.
fn accepts(measure: u64, table: &Table, ask: &Ask) -> Verdict {
    let reply = replies(&written(measure, table), ask)?;
    if reply.starts_with(b"refused") {
        return Err(format!("{ask:?} gave {}", reply.escape_ascii()));
    }
    changes(measure, table, ask)
}

/// Each part needs the one before twice; the bills of the last two have 16,384 lines and one more.
fn longest_bill(_: &Trial) -> Outcome {
    let mut table = Table::of(16, &[(0, 1, [])]);
    (1..14).for_each(|part| table.push(part, 0, &[part - 1; 2]));
    (14..16).for_each(|part| table.push(part, 0, &[part - 1]));
    for measure in MEASURES {
        let lengths = bill_lengths(&table, &solve(measure, &table));
        expect("the length", lengths[14] as u64, MOST_LINES as u64)?;
        accepts(measure, &table, &Ask::Bill(14))?;
        refuses(measure, &table, &Ask::Bill(15), 13)?;
    }
    Ok(6)
}

/// A table whose text, in cost, has so many bytes: long lines, then such as fill up what is left.
fn filled(length: usize) -> Table {
    let mut table = Table::new(10);
    (0..1_000).for_each(|_| table.push(0, 0, &[0; LONGEST_TAIL]));
    let mut left = length - written(COST, &table).len();
    while left > 16 {
        table.push(0, GREATEST, &[]);
        left -= 13;
    }
    if left > 13 {
        table.push(0, 10, &[]);
        left -= 5;
    }
    // A line of one digit has 4 bytes.
    table.push(0, 10u64.pow(left as u32 - 4), &[]);
    table
}

/// Changes that leave a text of 65,535 bytes, and such as would leave one byte more.
fn longest_text(_: &Trial) -> Outcome {
    let (full, near) = (filled(MOST_INPUT), filled(MOST_INPUT - 1));
    expect("the length", written(COST, &full).len() as u64, MOST_INPUT as u64)?;
    let strike = Ask::Change(Change::Strike(0));
    let reprice = |figure| Ask::Change(Change::Reprice(1, figure));
    accepts(COST, &full, &Ask::Price)?;
    accepts(COST, &full, &Ask::Check)?;
    accepts(COST, &full, &reprice(9))?;
    refuses(COST, &full, &reprice(10), 15)?;
    refuses(COST, &full, &strike, 15)?;
    refuses(COST, &full, &Ask::Append(0, 0, vec![]), 15)?;
    accepts(COST, &near, &reprice(99))?;
    refuses(COST, &near, &reprice(100), 15)?;
    accepts(COST, &near, &strike)?;
    let room_for_four = filled(MOST_INPUT - 4);
    accepts(COST, &room_for_four, &Ask::Append(9, 9, vec![]))?;
    refuses(COST, &room_for_four, &Ask::Append(9, 10, vec![]), 15)?;
    let mut struck = near;
    struck.strikes[0] = STRUCK;
    accepts(COST, &struck, &Ask::Change(Change::Restore(0)))?;
    Ok(12)
}

/// One byte more than the longest input is refused, whatever the bytes are.
fn longest_input(trial: &Trial) -> Outcome {
    let mut rng = trial.rng();
    let asks = [
        Ask::Price,
        Ask::Bill(0),
        Ask::Uses(0),
        Ask::Change(Change::Reprice(0, 0)),
        Ask::Change(Change::Strike(0)),
        Ask::Change(Change::Restore(0)),
        Ask::Append(0, 0, vec![]),
        Ask::Check,
        Ask::CheckOrder,
    ];
    let permitted = written(COST, &filled(MOST_INPUT + 1));
    expect("the length", permitted.len() as u64, MOST_INPUT as u64 + 1)?;
    for ask in &asks {
        prints(&permitted, ask, b"refused 17 0\n")?;
        for length in [MOST_INPUT + 1, 200_000] {
            let byte = rng.pick(b"p0 \n\0\xFF");
            prints(&vec![byte; length], ask, b"refused 17 0\n")?;
        }
        // Cut by its last byte it is read, and ends too early.
        replies(&permitted[..MOST_INPUT], ask)?;
    }
    Ok(4 * asks.len() as u64)
}

/// A line more than 4,096 is refused before anything in it is looked at.
fn most_lines(_: &Trial) -> Outcome {
    let mut table = Table::new(2);
    (1..MOST_EDGES).for_each(|line| table.push(line as u64 % 2, 7, &[]));
    accepts(DAYS, &table, &Ask::Append(1, 3, vec![0, 0]))?;
    table.push(1, 3, &[0, 0]);
    for ask in [Ask::Append(0, 0, vec![]), Ask::Append(2, GREATEST + 1, vec![2])] {
        refuses(DAYS, &table, &ask, 2)?;
    }
    Ok(3)
}

/// The same of 16,384 listed parts.
fn most_listed(_: &Trial) -> Outcome {
    let mut table = Table::of(2, &[(0, 1, [])]);
    (1..MOST_TAILS / LONGEST_TAIL).for_each(|_| table.push(1, 0, &[0; LONGEST_TAIL]));
    table.push(1, 0, &[0; 12]);
    accepts(GRADE, &table, &Ask::Append(1, 3, vec![0, 1, 1, 0]))?;
    refuses(GRADE, &table, &Ask::Append(1, 3, vec![0; 5]), 2)?;
    refuses(GRADE, &table, &Ask::Append(2, GREATEST + 1, vec![2; 16]), 2)?;
    table.push(1, 0, &[0; 4]);
    accepts(GRADE, &table, &Ask::Append(1, 3, vec![]))?;
    refuses(GRADE, &table, &Ask::Append(1, 3, vec![0]), 2)?;
    Ok(5)
}

/// Larger tables, in every measure; one whose text is too long is refused by 17.
fn large_tables(trial: &Trial) -> Outcome {
    trial.cases(trial.count / 250, |rng| {
        let table = closed(&large(rng));
        for measure in MEASURES {
            let text = written(measure, &table);
            for ask in [Ask::Price, Ask::Bill(rng.below(table.n)), Ask::Uses(rng.below(table.n))] {
                replies(&text, &ask)?;
            }
        }
        Ok(())
    })
}
