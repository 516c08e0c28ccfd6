//! Writing what is turned away: 16, then 1 to 6 and 21, then 15, and nothing lent is altered, which the
//! wrapper sees to.

use crate::model::solver::refusal;
use crate::model::text::{write_result, written};
use crate::model::*;
use crate::random::Rng;
use crate::tables;
use crate::tables::damage::{damaged, faults, reported, sound, Call, Fault};
use crate::tables::examples::worked;
use crate::tables::limits::steps;
use crate::text::checks::{bytes, writes_into};
use crate::trial::{expect, Outcome, Test, Trial, Verdict};

pub const TESTS: &[Test] = &[
    Test { name: "writing/stated", run: stated },
    Test { name: "writing/each", run: each },
    Test { name: "writing/pairs", run: pairs },
    Test { name: "writing/many", run: many },
    Test { name: "writing/struck", run: struck },
    Test { name: "writing/limits", run: at_the_limits },
    Test { name: "writing/one-word", run: one_word },
    Test { name: "writing/noise", run: noise },
];

/// Long enough for every table that is damaged here, and too short for any.
const ROOMS: [usize; 3] = [1_000, 7, 0];

/// Writing returns `wanted` whatever the room, which is looked at last.
fn refuses(measure: u64, table: &Table, wanted: u64, rng: &mut Rng) -> Verdict {
    ROOMS.iter().try_for_each(|&room| {
        expect("the tests' own writer", write_result(measure, table, room), wanted)?;
        writes_into(measure, table, &bytes(rng, room))
    })
}

/// Writing into a room long enough is accepted; into the short ones it is refused with 15.
fn accepts(measure: u64, table: &Table, rng: &mut Rng) -> Verdict {
    let length = written(measure, table).len();
    for (room, wanted) in [(length, length as u64), (length - 1, refusal(15, 0))] {
        expect("the tests' own writer", write_result(measure, table, room), wanted)?;
        writes_into(measure, table, &bytes(rng, room))?;
    }
    Ok(())
}

/// The faults' own order decides; the tests' own writer must say the same.
fn refused(sound: &Call, faults: &[Fault], rng: &mut Rng) -> Verdict {
    let call = damaged(sound, faults);
    refuses(call.measure, &call.table, reported(faults.iter()), rng)
        .map_err(|wrong| format!("{faults:?}: {wrong}"))
}

/// Those of a table and its measure: there are no answers here.
fn table_faults() -> Vec<Fault> {
    let of_answers = |fault: &Fault| matches!(fault, Fault::Answers(_, _));
    faults().into_iter().filter(|fault| !of_answers(fault)).collect()
}

type Change<'a> = &'a dyn Fn(&mut Table);

/// The small examples of the specification's list.
fn stated(trial: &Trial) -> Outcome {
    let mut rng = trial.rng();
    let cases: [(Change, u64, u64); 9] = [
        (&|table| table.n = 1_025, 1, 0),
        (&|table| *table = Table { heads: vec![0, 1], own: vec![1], ..Table::new(5) }, 2, 0),
        (&|table| table.strikes.truncate(5), 2, 0),
        (&|table| table.heads[3] = 5, 3, 3),
        (&|table| table.own[2] = 1_000_000_002, 4, 2),
        (&|table| table.own[2] = 1_000_000_001, 4, 2),
        (&|table| table.strikes[3] = 2, 21, 3),
        (&|table| table.spans[..4].copy_from_slice(&[0, 2, 1, 1]), 5, 1),
        (&|table| table.tails[4] = 9, 6, 4),
    ];
    for (change, number, place) in cases {
        let mut table = worked();
        change(&mut table);
        refuses(COST, &table, refusal(number, place), &mut rng)?;
        refuses(3, &table, refusal(16, 0), &mut rng)?;
    }
    refuses(3, &worked(), refusal(16, 0), &mut rng)?;
    accepts(COST, &worked(), &mut rng)?;
    accepts(DAYS, &worked(), &mut rng)?;
    accepts(GRADE, &worked(), &mut rng)?;
    Ok(2 * cases.len() as u64 + 4)
}

fn each(trial: &Trial) -> Outcome {
    let faults = table_faults();
    trial.cases(10, |rng| {
        let call = sound(rng);
        accepts(call.measure, &call.table, rng)?;
        faults.iter().try_for_each(|fault| refused(&call, &[*fault], rng))
    })
}

fn pairs(trial: &Trial) -> Outcome {
    let faults = table_faults();
    let mut rng = trial.rng();
    let call = sound(&mut rng);
    let mut tried = 0;
    for (place, &first) in faults.iter().enumerate() {
        // Two faults of one rank may cancel out.
        for &second in faults[place..].iter().filter(|second| second.rank() != first.rank()) {
            refused(&call, &[first, second], &mut rng)?;
            tried += 1;
        }
    }
    Ok(tried)
}

fn many(trial: &Trial) -> Outcome {
    let faults = table_faults();
    trial.cases(trial.count / 2, |rng| {
        let mut chosen: Vec<Fault> = Vec::new();
        for _ in 0..rng.between(3, 8) {
            let fault = rng.pick(&faults);
            if chosen.iter().all(|other| other.rank() != fault.rank()) {
                chosen.push(fault);
            }
        }
        let call = sound(rng);
        refused(&call, &chosen, rng)
    })
}

/// A struck hyperedge is held to 3, 4, 21, 5 and 6 like any other.
fn struck(trial: &Trial) -> Outcome {
    let faults = table_faults();
    let mut rng = trial.rng();
    let mut call = sound(&mut rng);
    call.table.strikes.fill(STRUCK);
    accepts(call.measure, &call.table, &mut rng)?;
    for fault in &faults {
        refused(&call, &[*fault], &mut rng)?;
    }
    Ok(faults.len() as u64)
}

fn at_the_limits(trial: &Trial) -> Outcome {
    let mut rng = trial.rng();
    let steps = steps();
    for (accepted, turned_away, number) in &steps {
        for measure in MEASURES {
            accepts(measure, accepted, &mut rng)?;
            refuses(measure, turned_away, refusal(*number, 0), &mut rng)?;
        }
    }
    Ok(steps.len() as u64)
}

/// One word or one length of a sound table changed to anything; it may still be accepted.
fn one_word(trial: &Trial) -> Outcome {
    trial.cases(2 * trial.count, |rng| {
        let mut table = tables::any(rng);
        let mut measure = rng.pick(&MEASURES);
        let length = written(measure, &table).len();
        let Table { n, heads, own, strikes, spans, tails } = &mut table;
        let column = rng.index(7);
        match [heads, own, strikes, spans, tails].into_iter().nth(column) {
            Some(words) if !words.is_empty() && rng.chance(80) => {
                let place = rng.index(words.len());
                words[place] = rng.any();
            }
            Some(words) if rng.chance(50) => words.truncate(words.len().saturating_sub(1)),
            Some(words) => words.push(rng.any()),
            None if column == 5 => *n = rng.any(),
            None => measure = rng.any(),
        }
        let room = length + rng.index(20);
        writes_into(measure, &table, &bytes(rng, room))
    })
}

/// Short columns of arbitrary numbers.
fn noise(trial: &Trial) -> Outcome {
    trial.cases(4 * trial.count, |rng| {
        let edges = rng.index(4);
        let mut table = Table {
            n: rng.below(6),
            heads: (0..edges).map(|_| rng.below(6)).collect(),
            own: rng.noise(edges),
            strikes: (0..edges).map(|_| rng.pick(&[0, 0, 1, 1, 2])).collect(),
            spans: (0..2 * edges).map(|_| rng.below(5)).collect(),
            tails: (0..rng.below(8)).map(|_| rng.below(6)).collect(),
        };
        if rng.chance(30) {
            let length = rng.index(8);
            table.spans = rng.noise(length);
        }
        let measure = if rng.chance(80) { rng.pick(&MEASURES) } else { rng.any() };
        let room = rng.index(60);
        writes_into(measure, &table, &bytes(rng, room))
    })
}
