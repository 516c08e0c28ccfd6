//! Replaying records of receipts and orders, compared with a replay over maps: what is returned, and
//! what is left of the counts and the outcomes.

use crate::calls::inventory::replay;
use crate::model::inventory::*;
use crate::model::solver::{refusal, solve};
use crate::model::*;
use crate::random::Rng;
use crate::tables;
use crate::tables::damage::{damaged, faults, sound};
use crate::tables::examples::worked as worked_table;
use crate::trial::{expect, Outcome, Test, Trial, Verdict};

pub const TESTS: &[Test] = &[
    Test { name: "inventory/worked", run: worked },
    Test { name: "inventory/random", run: random },
    Test { name: "inventory/repeats", run: repeats },
    Test { name: "inventory/limit", run: limit },
    Test { name: "inventory/lengths", run: lengths },
    Test { name: "inventory/refusals", run: refusals },
    Test { name: "inventory/damage", run: damage },
    Test { name: "inventory/stale", run: stale },
    Test { name: "inventory/balance", run: balance },
    Test { name: "inventory/again", run: again },
];

/// The call does what the replay over maps does.
fn replays(measure: u64, table: &Table, answers: &Labelling, record: &Record) -> Verdict {
    let (wanted, stock, outcomes) = replayed(measure, table, answers, record);
    let verdict = replay(measure, table, answers, record).and_then(|(result, counts, numbers)| {
        expect("replaying", result, wanted)?;
        if counts != stock {
            return Err(format!("replaying left the counts {counts:?}, wanted {stock:?}"));
        }
        if numbers != outcomes {
            return Err(format!("replaying left the outcomes {numbers:?}, wanted {outcomes:?}"));
        }
        Ok(())
    });
    verdict.map_err(|wrong| {
        format!("{wrong}; measure {measure}, {}, {}", record.describe(), table.describe())
    })
}

/// Counts of which many are 0, or near the limit.
fn shelf(rng: &mut Rng, n: u64) -> Vec<u64> {
    let kind = rng.below(3);
    let count = |rng: &mut Rng| match kind {
        0 => rng.below(3),
        1 => rng.below(30),
        _ => MOST_STOCK - rng.below(3),
    };
    (0..n).map(|_| count(rng)).collect()
}

/// A record whose receipts are small, so that few shelves pass the limit.
fn events(rng: &mut Rng, n: u64, length: usize) -> Vec<(u64, u64)> {
    let receipts = rng.pick(&[0, 20, 50]);
    let event = |rng: &mut Rng| {
        let pieces = if rng.chance(receipts) { rng.between(1, 4) } else { 0 };
        (rng.below(n), pieces)
    };
    (0..length).map(|_| event(rng)).collect()
}

fn a_record(rng: &mut Rng, n: u64) -> Record {
    let length = if n == 0 { 0 } else { rng.index(60) };
    let events = events(rng, n, length);
    let (stock, outcomes) = (shelf(rng, n), rng.noise(length));
    Record::of(&events, &stock, &outcomes)
}

/// The request's example, the part that no line yields, and the smallest record of each refusal.
fn worked(_: &Trial) -> Outcome {
    let table = worked_table();
    let answers = solve(COST, &table);
    let lacking = Table::of(3, &[(0, 5, vec![1]), (1, 5, vec![])]);
    let whole = [(2, 0), (2, 0), (2, 1), (3, 0), (4, 0), (4, 0), (0, 0)];
    let stated = (0, vec![0; 5], vec![2, 3, 0, 2, 1, 3, 3]);
    let got = replay(COST, &table, &answers, &Record::of(&whole, &[1, 3, 0, 0, 1], &[9; 7]))?;
    if got != stated {
        return Err(format!("the request's example gave {got:?}"));
    }
    let answers = solve(COST, &lacking);
    let cases: [(&[(u64, u64)], [u64; 3], u64, &[u64], [u64; 3]); 7] = [
        (&[(2, 0)], [0, 1, 0], 0, &[LATE], [0, 1, 0]),
        (&[], [7, 8, 9], 0, &[], [7, 8, 9]),
        (&[(0, 0), (0, 0)], [0, 1, 0], 0, &[BUILT, LATE], [0, 0, 0]),
        (&[(1, MOST_STOCK)], [0, 0, 0], 0, &[RECEIVED], [0, MOST_STOCK, 0]),
        (&[(3, 0)], [0, 1_000_001, 0], refusal(26, 1), &[9], [0, 1_000_001, 0]),
        (&[(1, 0), (3, u64::MAX)], [0, 1, 0], refusal(25, 1), &[9, 9], [0, 1, 0]),
        (&[(1, 999_999), (1, 1)], [0, 1, 0], refusal(26, 1), &[9, 9], [0, 1, 0]),
    ];
    for (events, stock, result, outcomes, left) in &cases {
        let record = Record::of(events, stock, &vec![9; events.len()]);
        let got = replay(COST, &lacking, &answers, &record)?;
        if got != (*result, left.to_vec(), outcomes.to_vec()) {
            return Err(format!("{} gave {got:?}", record.describe()));
        }
    }
    Ok(1 + cases.len() as u64)
}

fn random(trial: &Trial) -> Outcome {
    trial.cases(trial.count, |rng| {
        let table = tables::any(rng);
        let measure = rng.pick(&MEASURES);
        let answers = solve(measure, &table);
        replays(measure, &table, &answers, &a_record(rng, table.n))
    })
}

/// Lists in which parts stand many times, over shelves that nearly hold them.
fn repeats(trial: &Trial) -> Outcome {
    trial.cases(trial.count, |rng| {
        let mut table = Table::new(4);
        table.push(0, 1, &[]);
        table.push(1, 1, &[]);
        let tail: Vec<u64> = (0..rng.between(1, 16)).map(|_| rng.below(2)).collect();
        table.push(2, 0, &tail);
        table.push(3, 0, &[2, 2, 1]);
        let measure = rng.pick(&MEASURES);
        let needed = |part: u64| tail.iter().filter(|&&u| u == part).count() as u64;
        let mut near = |count: u64| (2 * count + rng.below(3)).saturating_sub(1);
        let stock = [near(needed(0)), near(needed(1)), near(0), 0];
        let length = rng.index(12);
        let events: Vec<(u64, u64)> =
            (0..length).map(|_| (rng.between(1, 3), u64::from(rng.chance(10)))).collect();
        let record = Record::of(&events, &stock, &rng.noise(length));
        replays(measure, &table, &solve(measure, &table), &record)
    })
}

/// Receipts up to the greatest number, over counts at the limit and below it.
fn limit(trial: &Trial) -> Outcome {
    trial.cases(trial.count, |rng| {
        let table = Table::of(2, &[(0, 1, vec![]), (1, 1, vec![0])]);
        let stock = [rng.pick(&[0, 1, MOST_STOCK - 1, MOST_STOCK]), rng.below(3)];
        let left = MOST_STOCK - stock[0];
        let pieces = rng.pick(&[1, left, left + 1, MOST_STOCK, u64::MAX, u64::MAX - stock[0] + 1]);
        let events = [(rng.below(2), 0), (0, pieces), (0, 0), (0, rng.pick(&[0, 1, 2]))];
        let record = Record::of(&events, &stock, &rng.noise(4));
        replays(COST, &table, &solve(COST, &table), &record)
    })
}

/// Records of no events, of the most and of one more; columns and shelves that are too short or long.
fn lengths(trial: &Trial) -> Outcome {
    let mut rng = trial.rng();
    let table = worked_table();
    let answers = solve(DAYS, &table);
    let mut cases = 0;
    for length in [0, 1, MOST_EVENTS - 1, MOST_EVENTS, MOST_EVENTS + 1] {
        let events = events(&mut rng, table.n, length);
        let record = Record::of(&events, &shelf(&mut rng, table.n), &rng.noise(length));
        replays(DAYS, &table, &answers, &record)?;
        for change in 0..6 {
            let mut other = record.clone();
            let column = match change / 2 {
                0 => &mut other.received,
                1 => &mut other.outcomes,
                _ => &mut other.stock,
            };
            if change % 2 == 0 {
                column.push(0);
            } else if column.pop().is_none() {
                continue;
            }
            replays(DAYS, &table, &answers, &other)?;
            cases += 1;
        }
    }
    Ok(cases)
}

/// A bad event at the first place, at the last and between, with 25 and 26 in one event too.
fn refusals(trial: &Trial) -> Outcome {
    trial.cases(trial.count, |rng| {
        let table = tables::random(rng, &tables::TINY);
        let measure = rng.pick(&MEASURES);
        let length = 1 + rng.index(30);
        let mut events = events(rng, table.n, length);
        let place = rng.pick(&[0, length / 2, length - 1]);
        let part = rng.pick(&[table.n, table.n + 1, u64::MAX, 0]);
        events[place] = (part, rng.pick(&[0, MOST_STOCK + 1, u64::MAX, 1]));
        let mut stock = shelf(rng, table.n);
        if rng.chance(10) {
            let part = rng.index(stock.len());
            stock[part] = rng.pick(&[MOST_STOCK + 1, u64::MAX]);
        }
        let record = Record::of(&events, &stock, &rng.noise(length));
        replays(measure, &table, &solve(measure, &table), &record)
    })
}

/// Two faults of the table or its answer columns at once, with a record that is right or not.
fn damage(trial: &Trial) -> Outcome {
    let faults = faults();
    trial.cases(trial.count, |rng| {
        let call = sound(rng);
        let pair = [rng.pick(&faults), rng.pick(&faults)];
        let wrong = damaged(&call, &pair);
        let mut record = a_record(rng, call.table.n);
        match rng.below(4) {
            0 => record.outcomes.push(0),
            1 => record.stock.push(0),
            2 => record.stock[0] = u64::MAX,
            _ => {}
        }
        replays(wrong.measure, &wrong.table, &wrong.answers, &record)
    })
}

/// Answers of another measure, or with a number changed.
fn stale(trial: &Trial) -> Outcome {
    trial.cases(trial.count, |rng| {
        let table = tables::any(rng);
        let mut answers = solve(rng.pick(&MEASURES), &table);
        if table.n > 0 && rng.chance(50) {
            let part = rng.index(table.n as usize);
            let column = rng.index(3);
            answers.columns_mut()[column][part] ^= 1 << rng.below(12);
        }
        replays(rng.pick(&MEASURES), &table, &answers, &a_record(rng, table.n))
    })
}

/// Opening counts and receipts are final counts, pieces issued and pieces used, counted from the
/// columns as the call leaves them.
fn balance(trial: &Trial) -> Outcome {
    trial.cases(trial.count, |rng| {
        let table = tables::any(rng);
        let measure = rng.pick(&MEASURES);
        let answers = solve(measure, &table);
        let record = a_record(rng, table.n);
        let (result, stock, outcomes) = replay(measure, &table, &answers, &record)?;
        if result != 0 {
            return replays(measure, &table, &answers, &record);
        }
        for part in 0..table.n {
            let (mut opened, mut closed) = (record.stock[part as usize], stock[part as usize]);
            for (event, &of) in record.parts.iter().enumerate() {
                match outcomes[event] {
                    RECEIVED if of == part => opened += record.received[event],
                    ISSUED if of == part => closed += 1,
                    BUILT => {
                        let tail = listed(&table, &answers, of).ok_or("an unmade part is built")?;
                        closed += tail.iter().filter(|&&u| u == part).count() as u64;
                    }
                    _ => {}
                }
            }
            expect("a part's balance", closed, opened)
                .map_err(|wrong| format!("{wrong}; part {part}, {}", record.describe()))?;
        }
        Ok(())
    })
}

/// The final counts open the next record.
fn again(trial: &Trial) -> Outcome {
    trial.cases(trial.count / 4, |rng| {
        let table = tables::any(rng);
        let measure = rng.pick(&MEASURES);
        let answers = solve(measure, &table);
        let mut record = a_record(rng, table.n);
        for _ in 0..4 {
            replays(measure, &table, &answers, &record)?;
            let (_, stock, _) = replay(measure, &table, &answers, &record)?;
            record = Record { stock, ..a_record(rng, table.n) };
        }
        Ok(())
    })
}
