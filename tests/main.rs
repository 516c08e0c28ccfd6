//! Differential tests of the library's calls. Arguments: [seed] [count] [test].
//! The last line is 'N passed, M failed'; the exit status is 1 if a test failed.

mod answers;
mod append;
mod bill;
mod calls;
mod desk;
mod index;
mod inventory;
mod model;
mod ordered;
mod random;
mod reprice;
mod settle;
mod shuffle;
mod statistics;
mod tables;
mod text;
mod trial;

use std::process::{Command, ExitCode};
use trial::{Test, Trial};

/// One list for each call and each kind of test. A call that is added brings a module and its list.
const TESTS: &[&[Test]] = &[
    calls::lending::TESTS,
    settle::TESTS,
    model::trees::TESTS,
    answers::TESTS,
    answers::counts::TESTS,
    answers::near::TESTS,
    settle::entries::TESTS,
    bill::TESTS,
    bill::lengths::TESTS,
    settle::refusals::TESTS,
    settle::agreement::TESTS,
    reprice::TESTS,
    reprice::refusals::TESTS,
    answers::stale::TESTS,
    answers::values::TESTS,
    reprice::counting::TESTS,
    reprice::raising::TESTS,
    reprice::letter::TESTS,
    index::TESTS,
    append::TESTS,
    append::refusals::TESTS,
    text::TESTS,
    text::rooms::TESTS,
    text::broken::TESTS,
    text::mutated::TESTS,
    text::places::TESTS,
    text::unwritten::TESTS,
    statistics::TESTS,
    ordered::TESTS,
    ordered::refusals::TESTS,
    inventory::TESTS,
    shuffle::TESTS,
    desk::TESTS,
    desk::limits::TESTS,
    desk::mean::TESTS,
    desk::second::TESTS,
    desk::words::TESTS,
];

const SEED: u64 = 1;
const COUNT: u64 = 2_000;

struct Arguments {
    seed: u64,
    count: u64,
    test: Option<String>,
}

fn arguments() -> Option<Arguments> {
    let given: Vec<String> = std::env::args().skip(1).collect();
    let number = |place: usize, default: u64| match given.get(place) {
        Some(text) => text.parse().ok(),
        None => Some(default),
    };
    let (seed, count) = (number(0, SEED)?, number(1, COUNT)?);
    (given.len() <= 3).then(|| Arguments { seed, count, test: given.get(2).cloned() })
}

/// What was wrong with a test run here.
fn run_here(test: &Test, arguments: &Arguments) -> Option<String> {
    let trial = Trial { name: test.name, seed: arguments.seed, count: arguments.count };
    match (test.run)(&trial) {
        Ok(0) => Some("no case ran".to_string()),
        Ok(_) => None,
        Err(wrong) => Some(wrong),
    }
}

/// What was wrong with a test run in a process of its own, so that a library that crashes fails one
/// test and the rest still run.
fn run_apart(test: &Test, arguments: &Arguments) -> Option<String> {
    let numbers = [arguments.seed, arguments.count].map(|number| number.to_string());
    let program = std::env::current_exe();
    let ended = program.and_then(|path| Command::new(path).args(numbers).arg(test.name).output());
    let ended = match ended {
        Ok(ended) => ended,
        Err(error) => return Some(format!("the test did not start: {error}")),
    };
    if ended.status.success() {
        return None;
    }
    let printed = String::from_utf8_lossy(&ended.stdout);
    let line = printed.lines().find_map(|line| line.strip_prefix(&prefix(test, arguments)));
    Some(line.map_or_else(|| format!("the program ended with {}", ended.status), String::from))
}

fn prefix(test: &Test, arguments: &Arguments) -> String {
    format!("failed {} (seed {}, count {}): ", test.name, arguments.seed, arguments.count)
}

fn main() -> ExitCode {
    let arguments = match arguments() {
        Some(arguments) => arguments,
        None => {
            eprintln!("usage: check [seed] [count] [test]");
            return ExitCode::from(2);
        }
    };
    let chosen = |test: &&Test| arguments.test.as_ref().map_or(true, |name| name == test.name);
    let run = if arguments.test.is_some() { run_here } else { run_apart };
    let (mut passed, mut failed) = (0, 0);
    for test in TESTS.iter().copied().flatten().filter(chosen) {
        match run(test, &arguments) {
            None => passed += 1,
            Some(wrong) => {
                println!("{}{wrong}", prefix(test, &arguments));
                failed += 1;
            }
        }
    }
    println!("{passed} passed, {failed} failed");
    if failed == 0 && passed > 0 {
        ExitCode::SUCCESS
    } else {
        ExitCode::FAILURE
    }
}
