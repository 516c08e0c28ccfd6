//! The longest bills: as deep as a table allows, and longer than a number of 32 or 64 bits.

use super::prints;
use crate::calls::bill;
use crate::model::solver::{bill_lengths, refusal, solve};
use crate::model::*;
use crate::trial::{expect, Outcome, Test, Trial};

pub const TESTS: &[Test] = &[
    Test { name: "bills/deepest", run: deepest },
    Test { name: "bills/past-64-bits", run: past_64_bits },
    Test { name: "bills/past-any-number", run: past_any_number },
];

/// A chain of 1,024: each vertex lists the one before, at one of sixteen places, and the first.
fn deep_chain(place: usize) -> Table {
    let mut table = Table::new(MOST_VERTICES);
    table.push(0, 1, &[]);
    for vertex in 1..MOST_VERTICES {
        let mut tail = [0; LONGEST_TAIL];
        tail[place] = vertex - 1;
        table.push(vertex, 1, &tail);
    }
    table
}

fn deepest(trial: &Trial) -> Outcome {
    let last = MOST_VERTICES - 1;
    for place in [0, 7, 15] {
        let table = deep_chain(place);
        let right = solve(COST, &table);
        expect("the depth", right.label(last).depth, MOST_VERTICES)?;
        let length = 1 + 16 * (MOST_VERTICES - 1);
        expect("the length", bill_lengths(&table, &right)[last as usize] as u64, length)?;
        for places in [length, length + 5, length - 1] {
            prints(COST, &table, &right, last, &trial.rng().noise(places as usize))?;
        }
    }
    Ok(9)
}

/// The last vertex's bill has exactly this many lines: each vertex lists the one before twice, or
/// once for a bill of 2, and vertex 0 once more where a line is left over.
fn with_bill_of(length: u128) -> Table {
    let (mut left, mut listed) = (length, Vec::new());
    while left > 1 {
        let places = if left == 2 { 1 } else { 3 - left % 2 };
        left = if left == 2 { 1 } else { (left + 1 - places) / 2 };
        listed.push(places as usize);
    }
    let mut table = Table::new(listed.len() as u64 + 1);
    table.push(0, 1, &[]);
    for (vertex, &places) in (0..).zip(listed.iter().rev()) {
        table.push(vertex + 1, 0, &[vertex, vertex, 0][..places]);
    }
    table
}

/// Lengths that are low once they are cut to 32 or 64 bits: the cut ones would fit the rooms.
fn past_64_bits(trial: &Trial) -> Outcome {
    let mut rng = trial.rng();
    let mut cases = 0;
    for high in [0, 1 << 32, 1 << 63, 1 << 64, 1 << 65] {
        for length in (high..high + 9).filter(|&length| length > 0) {
            let table = with_bill_of(length);
            for measure in MEASURES {
                let right = solve(measure, &table);
                let lengths = bill_lengths(&table, &right);
                if lengths.last() != Some(&length) {
                    return Err(format!("lengths of {lengths:?} for a bill of {length}"));
                }
                for places in [0, 4, 9, 1_024] {
                    prints(measure, &table, &right, table.n - 1, &rng.noise(places))?;
                    cases += 1;
                }
            }
        }
    }
    Ok(cases)
}

/// Each vertex lists sixteen of the one before: the last bill has more than 16^1,023 lines.
fn past_any_number(trial: &Trial) -> Outcome {
    let mut table = Table::new(MOST_VERTICES);
    table.push(0, 0, &[]);
    for vertex in 1..MOST_VERTICES {
        table.push(vertex, 0, &[vertex - 1; LONGEST_TAIL]);
    }
    let mut rng = trial.rng();
    let parts = [4, 15, 16, 17, 31, 32, 33, 63, 64, 255, 512, 1_023];
    for measure in MEASURES {
        let right = solve(measure, &table);
        for part in parts {
            for places in [0, 1, 16, 1_024, 65_536] {
                let found = bill(measure, &table, &right, part, &rng.noise(places))?;
                expect("bill", found.0, refusal(13, 0))
                    .map_err(|wrong| format!("part {part}, {places} places: {wrong}"))?;
            }
        }
    }
    Ok(10 * parts.len() as u64)
}
