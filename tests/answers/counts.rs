//! Piece counts: those about the cap, and lent ones that are wrong alone, while figure, depth and line
//! are right.

use crate::answers::judged;
use crate::calls::{reprice, settle, strike};
use crate::model::solver::{piece_counts, refusal, solve};
use crate::model::*;
use crate::settle::{same, settles_to};
use crate::tables;
use crate::trial::{expect, Outcome, Test, Trial, Verdict};

pub const TESTS: &[Test] = &[
    Test { name: "counts/about-the-cap", run: about_the_cap },
    Test { name: "counts/hostile", run: hostile },
    Test { name: "counts/same-sum", run: same_sum },
    Test { name: "counts/other-table", run: other_table },
    Test { name: "counts/refused-by-8", run: refused },
];

/// Bought, then tens, hundreds and so on; then nines of 1, 2 and more digits; then one, two and
/// sixteen times more than the last of them. Parts, with what each must count.
fn tens() -> (Table, Vec<u64>) {
    let mut table = Table::new(24);
    let mut counts = vec![1];
    table.push(0, 7, &[]);
    for power in 1..=10 {
        table.push(power, 0, &[power - 1; 10]);
        counts.push(10u64.pow(power as u32).min(MOST_PIECES));
    }
    table.push(11, 0, &[0; 9]);
    counts.push(9);
    for power in 1..=8 {
        let mut tail = vec![power; 9];
        tail.push(10 + power);
        table.push(11 + power, 0, &tail);
        counts.push(10 * counts.last().unwrap_or(&0) + 9);
    }
    table.push(20, 0, &[19, 0]);
    table.push(21, 0, &[19, 0, 0]);
    table.push(22, 0, &[10; 16]);
    counts.extend([MOST_PIECES, MOST_PIECES, MOST_PIECES]);
    table.push(23, 0, &[23]);
    counts.push(0);
    (table, counts)
}

fn about_the_cap(trial: &Trial) -> Outcome {
    let (table, counts) = tens();
    expect("the nines", counts[19], MOST_PIECES - 1)?;
    for measure in MEASURES {
        let wanted = solve(measure, &table);
        if wanted.pieces != counts {
            return Err(format!("the solver counts {:?}, wanted {counts:?}", wanted.pieces));
        }
        settles_to(measure, &table, &wanted, &mut trial.rng())?;
    }
    Ok(2)
}

/// Numbers that no count is, and the counts next to the right one.
fn wrong_counts(right: u64) -> Vec<u64> {
    let mut numbers = vec![
        right.wrapping_sub(1),
        right + 1,
        0,
        1,
        MOST_PIECES,
        MOST_PIECES + 1,
        1 << 63,
        u64::MAX - MOST_PIECES,
        u64::MAX - 1,
        u64::MAX,
    ];
    numbers.retain(|&number| number != right);
    numbers
}

/// One count wrong alone: 0 for a made part and 1 for an unmade one among them, and numbers whose sum
/// with others wraps.
fn one_wrong(measure: u64, table: &Table) -> Outcome {
    let right = solve(measure, table);
    let mut tried = 0;
    for vertex in 0..table.n as usize {
        for number in wrong_counts(right.pieces[vertex]) {
            let mut lent = right.clone();
            lent.pieces[vertex] = number;
            judged(measure, table, &right, &lent)?;
            tried += 1;
        }
    }
    Ok(tried)
}

fn hostile(trial: &Trial) -> Outcome {
    let mut tried = one_wrong(COST, &tens().0)?;
    tried += trial.cases(trial.count / 2, |rng| {
        let table = tables::any(rng);
        one_wrong(rng.pick(&MEASURES), &table).map(|_| ())
    })?;
    Ok(tried)
}

/// Two wrong counts whose sum is right, and every count one too high.
fn same_sum(trial: &Trial) -> Outcome {
    trial.cases(trial.count, |rng| {
        let table = tables::any(rng);
        let measure = rng.pick(&MEASURES);
        let right = solve(measure, &table);
        for first in 0..table.n as usize {
            let second = rng.index(table.n as usize);
            let mut lent = right.clone();
            let moved = rng.pick(&[1, 2, u64::MAX]);
            lent.pieces[first] = lent.pieces[first].wrapping_add(moved);
            lent.pieces[second] = lent.pieces[second].wrapping_sub(moved);
            judged(measure, &table, &right, &lent)?;
        }
        let mut lent = right.clone();
        lent.pieces.iter_mut().for_each(|count| *count += 1);
        judged(measure, &table, &right, &lent)
    })
}

/// The counts of a table with another chosen line, and of the other measure.
fn other_table(trial: &Trial) -> Outcome {
    trial.cases(trial.count, |rng| {
        let table = tables::any(rng);
        let measure = rng.pick(&MEASURES);
        let right = solve(measure, &table);
        if table.edges() > 0 {
            let mut other = table.clone();
            other.strikes[rng.index(table.edges())] ^= 1;
            let pieces = solve(measure, &other).pieces;
            judged(measure, &table, &right, &Labelling { pieces, ..right.clone() })?;
        }
        let pieces = solve(DAYS - measure, &table).pieces;
        judged(measure, &table, &right, &Labelling { pieces, ..right.clone() })
    })
}

/// A wrong count alone: a change is refused by 8, and nothing is written.
fn refused(trial: &Trial) -> Outcome {
    trial.cases(trial.count, |rng| {
        let mut table = tables::any(rng);
        table.push(0, 1, &[]);
        let measure = rng.pick(&MEASURES);
        let edge = table.edges() as u64 - 1;
        let right = solve(measure, &table);
        let mut lent = right.clone();
        let vertex = rng.index(table.n as usize);
        lent.pieces[vertex] = rng.pick(&wrong_counts(right.pieces[vertex]));
        let repriced = reprice(measure, &table, &lent, edge, 5)?;
        let struck = strike(measure, &table, &lent, edge)?;
        for left in [repriced, struck] {
            expect("a change with a wrong count", left.result, refusal(8, 0))?;
            same("its answers", &left.answers, &lent)?;
            if left.own != table.own || left.strikes != table.strikes {
                return Err("a refused change wrote the table".to_string());
            }
        }
        counted_anew(measure, &table, &lent)
    })
}

/// Settling over wrong counts leaves the right ones.
fn counted_anew(measure: u64, table: &Table, lent: &Labelling) -> Verdict {
    let (result, left) = settle(measure, table, lent)?;
    expect("settle", result, 0)?;
    if left.pieces == piece_counts(table, &left) {
        Ok(())
    } else {
        Err(format!("settle left the counts {:?}", left.pieces))
    }
}
