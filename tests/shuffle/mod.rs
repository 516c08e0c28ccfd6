//! Shuffling and unshuffling, against the language's own bytes of a number.

use crate::calls::shuffle::{of_nothing, shuffle, unshuffle};
use crate::model::shuffle::{shuffled, unshuffled};
use crate::model::solver::refusal;
use crate::random::Rng;
use crate::tables::any;
use crate::trial::{expect, Outcome, Test, Trial, Verdict};

pub const TESTS: &[Test] = &[
    Test { name: "shuffle/worked", run: worked },
    Test { name: "shuffle/figures", run: figures },
    Test { name: "shuffle/random", run: random },
    Test { name: "shuffle/bytes", run: bytes },
    Test { name: "shuffle/lengths", run: lengths },
    Test { name: "shuffle/nothing", run: nothing },
    Test { name: "shuffle/upper", run: upper },
];

/// Figures at which a byte begins or ends, and beyond the limits of tables.
const EDGES: [u64; 10] =
    [0, 1, 255, 256, 65_535, 1_000_000_000, 1 << 32, 1 << 56, 1 << 63, u64::MAX];

fn filler(rng: &mut Rng, length: usize) -> Vec<u8> {
    (0..length).map(|_| rng.next() as u8).collect()
}

fn column(rng: &mut Rng, length: usize) -> Vec<u64> {
    let figure = |rng: &mut Rng| if rng.chance(50) { rng.pick(&EDGES) } else { rng.next() };
    (0..length).map(|_| figure(rng)).collect()
}

/// The column's bytes, and the column from them again, over filler.
fn there_and_back(rng: &mut Rng, own: &[u64]) -> Verdict {
    let (result, left) = shuffle(own, &filler(rng, 8 * own.len()))?;
    expect("shuffling", result, 0)?;
    if left != shuffled(own) {
        return Err(format!("shuffling {} figures left other bytes", own.len()));
    }
    let (result, back) = unshuffle(&left, &rng.noise(own.len()))?;
    expect("unshuffling", result, 0)?;
    if back != own {
        return Err(format!("unshuffling {} figures left others", own.len()));
    }
    Ok(())
}

/// The column of the bytes, and the bytes from it again, over filler.
fn back_and_there(rng: &mut Rng, bytes: &[u8]) -> Verdict {
    let (result, own) = unshuffle(bytes, &rng.noise(bytes.len() / 8))?;
    expect("unshuffling", result, 0)?;
    if own != unshuffled(bytes) {
        return Err(format!("unshuffling {} bytes left other figures", bytes.len()));
    }
    let (result, left) = shuffle(&own, &filler(rng, bytes.len()))?;
    expect("shuffling", result, 0)?;
    if left != bytes {
        return Err(format!("shuffling what {} bytes made left others", bytes.len()));
    }
    Ok(())
}

fn worked(_: &Trial) -> Outcome {
    let own = [0x0807_0605_0403_0201, 0xFF00_0000_0000_0010];
    let laid = [1, 0x10, 2, 0, 3, 0, 4, 0, 5, 0, 6, 0, 7, 0, 8, 0xFF];
    let (result, left) = shuffle(&own, &[9; 16])?;
    expect("shuffling", result, 0)?;
    let (result, back) = unshuffle(&laid, &[9; 2])?;
    expect("unshuffling", result, 0)?;
    if left != laid || back != own {
        return Err(format!("{left:?} and {back:?}"));
    }
    Ok(1)
}

fn figures(trial: &Trial) -> Outcome {
    let mut rng = trial.rng();
    let mut cases = 0;
    for length in [0, 1, 2, 7, 8, 4_096, 100_000] {
        for figure in EDGES {
            there_and_back(&mut rng, &vec![figure; length])?;
            cases += 1;
        }
        let own = column(&mut rng, length);
        there_and_back(&mut rng, &own)?;
        let bytes = filler(&mut rng, 8 * length);
        back_and_there(&mut rng, &bytes)?;
        cases += 2;
    }
    Ok(cases)
}

fn random(trial: &Trial) -> Outcome {
    trial.cases(trial.count, |rng| {
        let length = rng.index(70);
        let own = column(rng, length);
        there_and_back(rng, &own)
    })
}

fn bytes(trial: &Trial) -> Outcome {
    trial.cases(trial.count, |rng| {
        let length = rng.index(70);
        let bytes = filler(rng, 8 * length);
        back_and_there(rng, &bytes)
    })
}

/// Every length of bytes beside a short column: 27 of all but one, and then nothing is written.
fn lengths(trial: &Trial) -> Outcome {
    let mut rng = trial.rng();
    let mut cases = 0;
    for figures in 0..12 {
        for length in 0..8 * figures + 10 {
            let own = column(&mut rng, figures);
            let bytes = filler(&mut rng, length);
            let fits = length == 8 * figures;
            let wanted = if fits { 0 } else { refusal(27, 0) };
            let (result, left) = shuffle(&own, &bytes)?;
            expect("shuffling", result, wanted)?;
            let kept = if fits { shuffled(&own) } else { bytes.clone() };
            let (result, back) = unshuffle(&bytes, &own)?;
            expect("unshuffling", result, wanted)?;
            let made = if fits { unshuffled(&bytes) } else { own };
            if left != kept || back != made {
                return Err(format!("{length} bytes beside {figures} figures: {left:?}, {back:?}"));
            }
            cases += 1;
        }
    }
    Ok(cases)
}

fn nothing(_: &Trial) -> Outcome {
    let [shuffling, unshuffling] = of_nothing();
    expect("shuffling nothing", shuffling, 0)?;
    expect("unshuffling nothing", unshuffling, 0)?;
    Ok(2)
}

/// The own figures of accepted tables: the last half of the bytes is 0.
fn upper(trial: &Trial) -> Outcome {
    trial.cases(trial.count / 4, |rng| {
        let own = any(rng).own;
        let (result, left) = shuffle(&own, &filler(rng, 8 * own.len()))?;
        expect("shuffling", result, 0)?;
        match left[4 * own.len()..].iter().position(|&byte| byte != 0) {
            None => Ok(()),
            Some(place) => Err(format!("a byte of the upper half, {place}, is not 0")),
        }
    })
}
