//! Permitted texts changed byte by byte, and short texts made of a few words in every order. Some
//! are permitted still: the tests' own reader decides.

use crate::model::text::{closed, parse, written};
use crate::model::*;
use crate::random::Rng;
use crate::tables;
use crate::text::checks::reads;
use crate::text::lines::{FIRST, GOOD, LINES};
use crate::text::WORKED;
use crate::trial::{Outcome, Test, Trial, Verdict};

pub const TESTS: &[Test] = &[
    Test { name: "mutated/replaced", run: replaced },
    Test { name: "mutated/inserted", run: inserted },
    Test { name: "mutated/deleted", run: deleted },
    Test { name: "mutated/moved", run: moved },
    Test { name: "mutated/random", run: random },
    Test { name: "mutated/words", run: of_words },
    Test { name: "mutated/all-first-lines", run: all_first_lines },
    Test { name: "mutated/all-table-lines", run: all_table_lines },
    Test { name: "mutated/lines", run: of_lines },
];

/// Counts what is read, accepted and refused; both must occur where texts are tried at random.
#[derive(Default)]
struct Tried {
    accepted: u64,
    refused: u64,
}

impl Tried {
    fn read(&mut self, text: &[u8], rng: &mut Rng) -> Verdict {
        let count = if parse(text).is_ok() { &mut self.accepted } else { &mut self.refused };
        *count += 1;
        reads(text, rng)
    }

    fn outcome(&self) -> Outcome {
        if self.accepted == 0 || self.refused == 0 {
            return Err(format!("{} accepted, {} refused", self.accepted, self.refused));
        }
        Ok(self.accepted + self.refused)
    }
}

/// Small permitted texts in which every kind of line and the bounds of each number occur.
pub fn small() -> Vec<Vec<u8>> {
    let sixteen = format!("parts 2\n0 9{}\n", " 1".repeat(16));
    let texts = [
        WORKED,
        "parts 0\n",
        "parts 0 cost\n",
        "parts 3 cost\n0 0\n2 1000000000 0 1\n1 -40 2 2\n0 -0\n0 -1000000000\n",
        "parts 1024\n1023 999999999 1023 102 0\n",
        "parts 10 cost\n9 10 9\n0 100 0\n",
        &sixteen,
    ];
    texts.map(|text| text.as_bytes().to_vec()).to_vec()
}

/// Reads what `change` makes of each small text, place and byte.
fn changed(trial: &Trial, change: fn(&[u8], usize, u8) -> Vec<u8>) -> Outcome {
    let mut rng = trial.rng();
    let mut tried = Tried::default();
    for text in small() {
        for place in 0..text.len() {
            for byte in 0..=u8::MAX {
                tried.read(&change(&text, place, byte), &mut rng)?;
            }
        }
    }
    tried.outcome()
}

fn replaced(trial: &Trial) -> Outcome {
    changed(trial, |text, place, byte| [&text[..place], &[byte], &text[place + 1..]].concat())
}

/// Before each byte; behind the last one are the bytes of `broken/end` and of `mutated/moved`.
fn inserted(trial: &Trial) -> Outcome {
    changed(trial, |text, place, byte| [&text[..place], &[byte], &text[place..]].concat())
}

/// Every run of bytes left out: single ones, beginnings, ends and whole lines among them.
fn deleted(trial: &Trial) -> Outcome {
    let mut rng = trial.rng();
    let mut tried = Tried::default();
    for text in small() {
        for first in 0..text.len() {
            for behind in first..=text.len() {
                let left = [&text[..first], &text[behind..]].concat();
                tried.read(&left, &mut rng)?;
            }
        }
    }
    tried.outcome()
}

/// Two bytes exchanged; a byte put at the end; one text put behind another.
fn moved(trial: &Trial) -> Outcome {
    let mut rng = trial.rng();
    let mut tried = Tried::default();
    for text in small() {
        for first in 0..text.len() {
            for second in first..text.len() {
                let mut other = text.clone();
                other.swap(first, second);
                tried.read(&other, &mut rng)?;
            }
        }
        for byte in 0..=u8::MAX {
            tried.read(&[&text[..], &[byte]].concat(), &mut rng)?;
        }
        for other in small() {
            tried.read(&[&text[..], &other].concat(), &mut rng)?;
        }
    }
    tried.outcome()
}

const LIKELY: &[u8] = b"0011259  \n\n--pcost\t\r+:/\0";

/// Several changes in the text of a random table.
fn random(trial: &Trial) -> Outcome {
    let mut tried = Tried::default();
    trial.cases(5 * trial.count.max(200), |rng| {
        let table = closed(&tables::random(rng, &tables::TINY));
        let mut text = written(rng.pick(&MEASURES), &table);
        for _ in 0..rng.between(1, 3) {
            let place = rng.index(text.len());
            let byte = if rng.chance(80) { rng.pick(LIKELY) } else { rng.next() as u8 };
            match rng.below(3) {
                0 => text[place] = byte,
                1 => text.insert(place, byte),
                _ => drop(text.remove(place)),
            }
        }
        tried.read(&text, rng)
    })?;
    tried.outcome()
}

const WORDS: &[&str] = &[
    "0",
    "1",
    "2",
    "-1",
    "3",
    "10",
    "00",
    "-",
    "-0",
    "-00",
    "--1",
    "1000000000",
    "-1000000000",
    "1000000001",
    "-1000000001",
    "parts",
    "cost",
    "days",
    "grade",
];

/// Words at random, mostly with single spaces between.
fn of_words(trial: &Trial) -> Outcome {
    let mut tried = Tried::default();
    trial.cases(5 * trial.count.max(200), |rng| {
        let mut text =
            rng.pick(&["parts 3\n", "parts 3 cost\n", "parts 3 grade\n", "parts 11\n"]).to_string();
        for _ in 0..rng.below(8) {
            // The first words are right more often than not, so that long texts get far.
            let most = if rng.chance(90) { 4 } else { WORDS.len() };
            text += WORDS[rng.index(most)];
            text += if rng.chance(97) { rng.pick(&[" ", " ", " ", "\n"]) } else { "  " };
        }
        if text.ends_with(' ') && rng.chance(90) {
            text.pop();
            text.push('\n');
        }
        tried.read(text.as_bytes(), rng)
    })?;
    tried.outcome()
}

/// All rows of up to `longest` words behind `start`.
fn all_rows(trial: &Trial, start: &str, words: &[&str], longest: u32) -> Outcome {
    let mut rng = trial.rng();
    let mut tried = Tried::default();
    for length in 0..=longest {
        for number in 0..words.len().pow(length) {
            let mut text = start.to_string();
            for place in 0..length {
                text += words[number / words.len().pow(place) % words.len()];
            }
            tried.read(text.as_bytes(), &mut rng)?;
        }
    }
    tried.outcome()
}

fn all_first_lines(trial: &Trial) -> Outcome {
    all_rows(trial, "", &["parts", " ", "0", "1", "24", "cost", "\n"], 6)
}

fn all_table_lines(trial: &Trial) -> Outcome {
    all_rows(trial, "parts 2\n", &["0", "1", "2", "-", " ", "\n"], 7)
}

/// Sound and broken lines in any order, where the first line may be broken too.
fn of_lines(trial: &Trial) -> Outcome {
    let mut tried = Tried::default();
    trial.cases(trial.count.max(200), |rng| {
        let first =
            if rng.chance(95) { rng.pick(&["parts 5", "parts 5 cost"]) } else { rng.pick(FIRST) };
        let mut lines = vec![first];
        for _ in 0..rng.below(30) {
            let from = if rng.chance(98) { GOOD } else { LINES };
            lines.push(rng.pick(from));
        }
        let mut text = lines.join("\n");
        if rng.chance(95) {
            text.push('\n');
        }
        tried.read(text.as_bytes(), rng)
    })?;
    tried.outcome()
}
