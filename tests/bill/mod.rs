//! Printing bills, compared with the solver's: what is returned, what is written and what is left.

pub mod lengths;

use crate::calls::bill;
use crate::model::solver::{bill_lengths, bill_of, bill_outcome, refusal, solve};
use crate::model::*;
use crate::random::Rng;
use crate::tables;
use crate::tables::damage::{damaged, faults, sound, Call};
use crate::tables::examples::{examples, worked};
use crate::tables::limits::limits;
use crate::trial::{expect, Outcome, Test, Trial, Verdict};

pub const TESTS: &[Test] = &[
    Test { name: "bills/stated", run: stated },
    Test { name: "bills/examples", run: of_examples },
    Test { name: "bills/random", run: random },
    Test { name: "bills/room", run: room_for_it },
    Test { name: "bills/over", run: over },
    Test { name: "bills/limits", run: at_the_limits },
    Test { name: "bills/order", run: order },
    Test { name: "bills/one-word", run: one_word },
];

/// Rooms are at most so long: where all parts of a table are tried, and where a few are.
const SHORT: u128 = 2_000;
const LONG: u128 = 65_536;

/// The call does what the solver says.
pub fn prints(
    measure: u64,
    table: &Table,
    answers: &Labelling,
    part: u64,
    room: &[u64],
) -> Verdict {
    let (result, left) = bill_outcome(measure, table, answers, part, room);
    let verdict = bill(measure, table, answers, part, room).and_then(|(found, written)| {
        expect("bill", found, result)?;
        match (0..room.len()).find(|&place| written[place] != left[place]) {
            None => Ok(()),
            Some(place) => Err(format!("bill left {} at place {place}", written[place])),
        }
    });
    verdict.map_err(|wrong| {
        let (places, columns, table) = (room.len(), answers.describe(), table.describe());
        format!("{wrong}; part {part}, {places} places, measure {measure}, {columns}, {table}")
    })
}

/// The bills of all parts that a room can hold: in one that fits exactly, with places behind it, and
/// one place short. A bill too long for any room here is refused.
fn prints_all(measure: u64, table: &Table, rng: &mut Rng) -> Verdict {
    let right = solve(measure, table);
    let lengths = bill_lengths(table, &right);
    for part in 0..table.n {
        let length = lengths[part as usize].min(SHORT) as usize;
        for places in [length, length + rng.index(9), length.saturating_sub(1)] {
            prints(measure, table, &right, part, &rng.noise(places))?;
        }
    }
    Ok(())
}

/// P2, and the specification's small examples of 8, 11, 12 and 13.
fn stated(trial: &Trial) -> Outcome {
    let (table, answers) = (worked(), solve(COST, &worked()));
    let mut wrong = answers.clone();
    wrong.weights[0] += 1;
    let room = trial.rng().noise(6);
    let p2 = (6, vec![4, 2, 0, 1, 1, 1]);
    let refused = |number: u64, places: usize| (refusal(number, 0), room[..places].to_vec());
    let cases = [
        (&answers, 3, 6, p2),
        (&wrong, 3, 6, refused(8, 6)),
        (&answers, 5, 6, refused(11, 6)),
        (&answers, 4, 6, refused(12, 6)),
        (&answers, 3, 5, refused(13, 5)),
    ];
    for (lent, part, places, wanted) in &cases {
        let found = bill(COST, &table, lent, *part, &room[..*places])?;
        if found != *wanted {
            return Err(format!("part {part}, {places} places: {found:?}, wanted {wanted:?}"));
        }
        prints(COST, &table, lent, *part, &room[..*places])?;
    }
    Ok(cases.len() as u64)
}

fn of_examples(trial: &Trial) -> Outcome {
    let mut cases = 0;
    for example in examples() {
        prints_all(example.measure, &example.table, &mut trial.rng())
            .map_err(|wrong| format!("{}: {wrong}", example.name))?;
        cases += 1;
    }
    Ok(cases)
}

fn random(trial: &Trial) -> Outcome {
    trial.cases(trial.count / 2, |rng| {
        let table = tables::any(rng);
        prints_all(rng.pick(&MEASURES), &table, rng)
    })
}

/// Every room from none to a few places more than the bill.
fn room_for_it(trial: &Trial) -> Outcome {
    trial.cases(trial.count / 10, |rng| {
        let table = tables::random(rng, &tables::TINY);
        let measure = rng.pick(&MEASURES);
        let right = solve(measure, &table);
        let lengths = bill_lengths(&table, &right);
        for part in 0..table.n {
            for places in 0..lengths[part as usize] as usize + 4 {
                prints(measure, &table, &right, part, &rng.noise(places))?;
            }
        }
        Ok(())
    })
}

/// A part that is over has a bill: that of P8 has 1,111 lines.
fn over(trial: &Trial) -> Outcome {
    let p8 = examples().into_iter().find(|example| example.name == "P8");
    let p8 = p8.ok_or("no example P8")?;
    let answers = solve(COST, &p8.table);
    expect("the figure", answers.label(3).weight, OVER)?;
    expect("the length", bill_of(&p8.table, &answers, 3).len() as u64, 1_111)?;
    for places in [1_111, 1_110, 2_000] {
        prints(COST, &p8.table, &answers, 3, &trial.rng().noise(places))?;
    }
    let cases = trial.cases(trial.count / 20, |rng| {
        let table = tables::over(rng);
        prints_all(COST, &table, rng)
    })?;
    Ok(cases + 3)
}

/// A few parts of each of the largest tables.
fn at_the_limits(trial: &Trial) -> Outcome {
    let mut rng = trial.rng();
    let mut cases = 0;
    for (name, table) in limits(&mut rng).into_iter().filter(|(_, table)| table.n > 0) {
        let measure = rng.pick(&MEASURES);
        let right = solve(measure, &table);
        let lengths = bill_lengths(&table, &right);
        for part in [0, table.n - 1, rng.below(table.n), table.n] {
            let length = lengths.get(part as usize).map_or(5, |&length| length.min(LONG));
            prints(measure, &table, &right, part, &rng.noise(length as usize))
                .map_err(|wrong| format!("{name}: {wrong}"))?;
            cases += 1;
        }
    }
    Ok(cases)
}

/// Which of several refusals comes first: faults of the call with another part, answers that are not
/// the table's, an unmade part, and too little room.
fn order(trial: &Trial) -> Outcome {
    let faults = faults();
    trial.cases(trial.count, |rng| {
        let mut call = sound(rng);
        if rng.chance(30) {
            call = damaged(&call, &[rng.pick(&faults)]);
        }
        let Call { measure, table, mut answers } = call;
        if rng.chance(40) {
            let column = rng.index(4);
            if let Some(word) = answers.columns_mut()[column].last_mut() {
                *word = rng.any();
            }
        }
        let part = if rng.chance(25) { rng.any() } else { rng.below(12) };
        let places = rng.index(40);
        prints(measure, &table, &answers, part, &rng.noise(places))
    })
}

/// One word of the answers changed, near the part and anywhere: depths of 0 and depths that are
/// absurd among them.
fn one_word(trial: &Trial) -> Outcome {
    trial.cases(trial.count, |rng| {
        let table = tables::any(rng);
        let measure = rng.pick(&MEASURES);
        let mut answers = solve(measure, &table);
        let (column, vertex) = (rng.index(4), rng.index(table.n as usize));
        answers.columns_mut()[column][vertex] = rng.any();
        let part = rng.below(table.n + 1);
        let places = rng.index(40);
        prints(measure, &table, &answers, part, &rng.noise(places))
    })
}
