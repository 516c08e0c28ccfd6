//! Tables written as text and read back: the specification's own text, all families of tables, and
//! the largest ones.

pub mod broken;
pub mod checks;
pub mod lines;
pub mod mutated;
pub mod places;
pub mod rooms;
pub mod unwritten;

use crate::model::text::{closed, parse, written};
use crate::model::*;
use crate::random::Rng;
use crate::settle::{large, short_or_long_chain};
use crate::tables::examples::{circle, examples, worked};
use crate::tables::limits::limits;
use crate::tables::{self, Shape};
use crate::text::checks::*;
use crate::trial::{expect, Outcome, Test, Trial, Verdict};

pub const TESTS: &[Test] = &[
    Test { name: "texts/stated", run: stated },
    Test { name: "texts/examples", run: of_the_examples },
    Test { name: "texts/random", run: |trial| shaped(trial, &tables::MIXED) },
    Test { name: "texts/ties", run: |trial| shaped(trial, &tables::TIES) },
    Test { name: "texts/struck", run: |trial| shaped(trial, &tables::STRIKES) },
    Test { name: "texts/gaps", run: |trial| shaped(trial, &tables::GAPS) },
    Test { name: "texts/repeats", run: |trial| shaped(trial, &tables::REPEATS) },
    Test { name: "texts/tiny", run: |trial| shaped(trial, &tables::TINY) },
    Test { name: "texts/over", run: |trial| made(trial, trial.count, tables::over) },
    Test { name: "texts/ceiling", run: |trial| made(trial, trial.count, tables::ceiling) },
    Test { name: "texts/towers", run: |trial| made(trial, trial.count, tables::tower) },
    Test { name: "texts/chains", run: |trial| made(trial, trial.count / 20, short_or_long_chain) },
    Test { name: "texts/large", run: |trial| made(trial, trial.count / 50, large) },
    Test { name: "texts/numbers", run: numbers },
    Test { name: "texts/limits", run: at_the_limits },
    Test { name: "texts/longest", run: longest },
];

pub const WORKED: &str = "parts 5 cost\n0 1200\n1 300\n2 500 0 1\n2 2100\n3 0 2 1 1\n4 10 4\n";

/// Holds if the table is written as it should be, and its text read back with the gaps closed.
fn round_trip(measure: u64, table: &Table, rng: &mut Rng) -> Verdict {
    let text = written(measure, table);
    says(&text, measure, &closed(table))?;
    let spare = rng.index(40);
    writes_into(measure, table, &bytes(rng, text.len() + spare))?;
    reads(&text, rng)
}

/// The tests' own reader finds this table in the text.
fn says(text: &[u8], measure: u64, table: &Table) -> Verdict {
    match parse(text) {
        Ok(parsed) if parsed == (measure, table.clone()) => Ok(()),
        _ => Err(format!("the tests' own reader is wrong; {}", describe(text))),
    }
}

fn stated(trial: &Trial) -> Outcome {
    let none = Table::new;
    let sixteen = format!("parts 7 cost\n6 -0 6{}\n", " 0".repeat(15));
    let long: Vec<u64> = (0..16).map(|place| if place == 0 { 6 } else { 0 }).collect();
    let edges = [(1, GREATEST, vec![]), (0, GREATEST, vec![]), (1, 0, vec![1, 0, 1])];
    let limits = Table { strikes: vec![STANDS, STRUCK, STANDS], ..Table::of(2, &edges) };
    let long = Table { strikes: vec![STRUCK], ..Table::of(7, &[(6, 0, long)]) };
    let struck = |edge: usize| {
        let mut table = worked();
        table.strikes[edge] = STRUCK;
        table
    };
    let cases = [
        (WORKED.to_string(), COST, worked()),
        (WORKED.replace("parts 5 cost", "parts 5"), DAYS, worked()),
        (WORKED.replace("cost", "grade"), GRADE, worked()),
        (WORKED.replace("0 1200", "0 -1200"), COST, struck(0)),
        (WORKED.replace("2 500 0 1", "2 -500 0 1"), COST, struck(2)),
        (WORKED.replace("3 0 2", "3 -0 2"), COST, struck(4)),
        ("parts 0 cost\n".to_string(), COST, none(0)),
        ("parts 0\n".to_string(), DAYS, none(0)),
        ("parts 0 grade\n".to_string(), GRADE, none(0)),
        ("parts 1024 cost\n".to_string(), COST, none(1_024)),
        ("parts 1000\n".to_string(), DAYS, none(1_000)),
        ("parts 2 cost\n0 0 1\n1 0 0\n".to_string(), COST, circle()),
        ("parts 2\n1 1000000000\n0 -1000000000\n1 0 1 0 1\n".to_string(), DAYS, limits),
        (sixteen, COST, long),
    ];
    let mut rng = trial.rng();
    for (text, measure, table) in &cases {
        let text = text.as_bytes();
        says(text, *measure, table)?;
        if written(*measure, table) != text {
            return Err(format!("the tests' own writer is wrong; {}", describe(text)));
        }
        round_trip(*measure, table, &mut rng)?;
    }
    Ok(cases.len() as u64)
}

fn of_the_examples(trial: &Trial) -> Outcome {
    let examples = examples();
    for example in &examples {
        round_trip(example.measure, &example.table, &mut trial.rng())
            .map_err(|wrong| format!("{}: {wrong}", example.name))?;
    }
    Ok(examples.len() as u64)
}

fn shaped(trial: &Trial, shape: &Shape) -> Outcome {
    made(trial, trial.count, |rng| tables::random(rng, shape))
}

/// Each table in every measure.
fn made(trial: &Trial, cases: u64, make: impl Fn(&mut Rng) -> Table) -> Outcome {
    trial.cases(cases, |rng| {
        let table = make(rng);
        MEASURES.into_iter().try_for_each(|measure| round_trip(measure, &table, rng))
    })
}

/// Every vertex number as n, as head and in a tail, and own weights of every length, struck and not.
fn numbers(trial: &Trial) -> Outcome {
    let mut rng = trial.rng();
    for n in 1..=MOST_VERTICES {
        let mut table = Table::new(n);
        let power = 10u64.pow(rng.index(10) as u32);
        for own in [power - 1, power, 2 * power, power + rng.below(9 * power)] {
            let mark = rng.pick(&MARKS);
            table.push_marked(n - 1, own.min(GREATEST), mark, &[n - 1, 0, n / 2, n - 1]);
        }
        round_trip(rng.pick(&MEASURES), &table, &mut rng)?;
    }
    Ok(MOST_VERTICES)
}

fn at_the_limits(trial: &Trial) -> Outcome {
    let mut rng = trial.rng();
    let mut cases = 0;
    for (name, table) in limits(&mut rng) {
        for measure in MEASURES {
            round_trip(measure, &table, &mut rng).map_err(|wrong| format!("{name}: {wrong}"))?;
            cases += 1;
        }
    }
    Ok(cases)
}

/// The longest text there is: all columns full, every hyperedge struck, and every number of as many
/// digits as it may have.
pub fn longest_table() -> Table {
    let last = MOST_VERTICES - 1;
    let mut table = Table::new(MOST_VERTICES);
    for _ in 0..MOST_EDGES {
        table.push_marked(last, GREATEST, STRUCK, &[last; MOST_TAILS / MOST_EDGES]);
    }
    table
}

/// Its length is 16 in the first line, 17 in each of 4,096 others and 5 for each of 16,384 vertices.
fn longest(trial: &Trial) -> Outcome {
    let mut rng = trial.rng();
    let table = longest_table();
    let length = written(COST, &table).len();
    expect("the longest text's length", length as u64, 16 + 17 * 4_096 + 5 * 16_384)?;
    for measure in MEASURES {
        round_trip(measure, &table, &mut rng)?;
    }
    for length in [length - 1, length, length + 1] {
        writes_into(COST, &table, &bytes(&mut rng, length))?;
    }
    Ok(5)
}
