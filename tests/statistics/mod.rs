//! Summarizing a sample, against sums over pairs in 128 bits.

use crate::calls::statistics::summarize;
use crate::model::solver::refusal;
use crate::model::statistics::{summarized, GREATEST_RESULT, MOST_RESULTS};
use crate::random::Rng;
use crate::trial::{expect, Outcome, Test, Trial, Verdict};

pub const TESTS: &[Test] = &[
    Test { name: "statistics/worked", run: worked },
    Test { name: "statistics/random", run: random },
    Test { name: "statistics/equal", run: equal },
    Test { name: "statistics/largest", run: largest },
    Test { name: "statistics/lengths", run: lengths },
    Test { name: "statistics/damage", run: damage },
    Test { name: "statistics/shuffled", run: shuffled },
    Test { name: "statistics/rooms", run: rooms },
];

/// A room of four places of noise, so that one left as it was is told from one that was written.
const ROOM: [u64; 4] = [9, 99, 999, 9_999];

fn answered(results: &[u64], wanted: u64, numbers: Option<[u64; 4]>) -> Verdict {
    let (result, room) = summarize(results, &ROOM)?;
    let told = || format!("of {} results from {:?}", results.len(), results.get(..8));
    expect("summarizing", result, wanted).map_err(|wrong| format!("{wrong}; {}", told()))?;
    let numbers = numbers.unwrap_or(ROOM);
    if room == numbers {
        return Ok(());
    }
    Err(format!("summarizing left {room:?}, wanted {numbers:?}; {}", told()))
}

fn as_model_says(results: &[u64]) -> Verdict {
    let (wanted, numbers) = summarized(results);
    answered(results, wanted, numbers)
}

/// A sample of the given length: far apart, close together, small, or one of two.
fn sample(rng: &mut Rng, length: usize) -> Vec<u64> {
    let (low, high) = match rng.below(4) {
        0 => (0, GREATEST_RESULT),
        1 => (GREATEST_RESULT - 1_000, GREATEST_RESULT),
        2 => (0, 9),
        _ => {
            let pair = [rng.below(GREATEST_RESULT + 1), rng.below(GREATEST_RESULT + 1)];
            return (0..length).map(|_| rng.pick(&pair)).collect();
        }
    };
    (0..length).map(|_| rng.between(low, high)).collect()
}

fn a_length(rng: &mut Rng) -> usize {
    let most = rng.pick(&[4, 40, 400, MOST_RESULTS]);
    1 + rng.index(most)
}

fn worked(_: &Trial) -> Outcome {
    answered(&[2, 4, 9], 0, Some([5, 1, 26, 3]))?;
    answered(&[9, 2, 4], 0, Some([5, 1, 26, 3]))?;
    answered(&[7], 0, Some([7, 1, 0, 1]))?;
    answered(&[0], 0, Some([0, 1, 0, 1]))?;
    answered(&[6; 4], 0, Some([6, 1, 0, 1]))?;
    answered(&[1, 2], 0, Some([3, 2, 1, 4]))?;
    answered(&[], refusal(22, 0), None)?;
    answered(&[1, 1_000_001], refusal(23, 1), None)?;
    Ok(8)
}

fn random(trial: &Trial) -> Outcome {
    trial.cases(trial.count / 4, |rng| {
        let length = a_length(rng);
        as_model_says(&sample(rng, length))
    })
}

fn equal(trial: &Trial) -> Outcome {
    trial.cases(trial.count / 4, |rng| {
        let length = a_length(rng);
        let result = rng.below(GREATEST_RESULT + 1);
        answered(&vec![result; length], 0, Some([result, 1, 0, 1]))
    })
}

/// Numerators as large as they can be, and sums of squares.
fn largest(_: &Trial) -> Outcome {
    let ends = |place: usize| if place % 2 == 0 { 0 } else { GREATEST_RESULT };
    for length in [MOST_RESULTS, MOST_RESULTS - 1, MOST_RESULTS - 3] {
        let alternating: Vec<u64> = (0..length).map(ends).collect();
        as_model_says(&alternating)?;
        let mut all = vec![GREATEST_RESULT; length];
        as_model_says(&all)?;
        all[0] -= 1;
        as_model_says(&all)?;
    }
    let alternating: Vec<u64> = (0..MOST_RESULTS).map(ends).collect();
    answered(&alternating, 0, Some([500_000, 1, 250_000_000_000, 1]))?;
    Ok(10)
}

/// Too many are refused whatever they are, and so is an empty sample.
fn lengths(trial: &Trial) -> Outcome {
    let mut rng = trial.rng();
    let lengths = [0, 1, 2, 3, 999, 1_000, 1_001, 1_002, 4_096];
    for length in lengths {
        as_model_says(&sample(&mut rng, length))?;
        as_model_says(&vec![0; length])?;
        as_model_says(&rng.noise(length))?;
    }
    Ok(3 * lengths.len() as u64)
}

/// A result that is too large at each index, alone and before others.
fn damage(trial: &Trial) -> Outcome {
    let mut rng = trial.rng();
    let mut cases = 0;
    for length in [1, 2, 3, 50, MOST_RESULTS] {
        let sound = sample(&mut rng, length);
        for place in 0..length {
            let mut damaged = sound.clone();
            damaged[place] = rng.pick(&[GREATEST_RESULT + 1, 1 << 32, 1 << 63, u64::MAX]);
            let later = place + rng.index(length - place);
            damaged[later] = damaged[later].max(rng.pick(&[0, GREATEST_RESULT + 1, u64::MAX]));
            answered(&damaged, refusal(23, place as u64), None)?;
            cases += 1;
        }
    }
    Ok(cases)
}

fn shuffled(trial: &Trial) -> Outcome {
    trial.cases(trial.count / 10, |rng| {
        let length = a_length(rng);
        let mut results = sample(rng, length);
        let (wanted, numbers) = summarized(&results);
        for _ in 0..8 {
            rng.shuffle(&mut results);
            answered(&results, wanted, numbers)?;
        }
        results.sort_unstable();
        answered(&results, wanted, numbers)?;
        results.reverse();
        answered(&results, wanted, numbers)
    })
}

/// The numbers are written where four places are lent, and nowhere else.
fn rooms(trial: &Trial) -> Outcome {
    let mut rng = trial.rng();
    for places in 0..8 {
        for results in [vec![2, 4, 9], vec![], vec![GREATEST_RESULT + 1]] {
            let given = rng.noise(places);
            let (wanted, numbers) = summarized(&results);
            let (result, room) = summarize(&results, &given)?;
            expect("summarizing", result, wanted)?;
            let left = match numbers {
                Some(numbers) if places == 4 => numbers.to_vec(),
                _ => given,
            };
            if room != left {
                return Err(format!("a room of {places} places is left {room:?}"));
            }
        }
    }
    Ok(24)
}
