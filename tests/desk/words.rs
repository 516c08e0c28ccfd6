//! Words that are no command: nothing is printed, standard error says so, and no input is read.

use crate::desk::program::{printed, with_file, with_nothing};
use crate::trial::{expect, Outcome, Test, Trial, Verdict};
use std::fs::File;
use std::io::Seek;
use std::process::Output;

pub const TESTS: &[Test] = &[
    Test { name: "desk-words/names", run: names },
    Test { name: "desk-words/counts", run: counts },
    Test { name: "desk-words/numbers", run: numbers },
    Test { name: "desk-words/long", run: long },
    Test { name: "desk-words/bounds", run: bounds },
    Test { name: "desk-words/reading", run: reading },
];

const TABLE: &str = "examples/week.parts";

/// Each command with the least and the most numbers that it takes.
const COMMANDS: [(&str, usize, usize); 10] = [
    ("price", 0, 0),
    ("bill", 1, 1),
    ("uses", 1, 1),
    ("reprice", 2, 2),
    ("strike", 1, 1),
    ("restore", 1, 1),
    ("append", 2, 18),
    ("check", 0, 0),
    ("check-order", 0, 0),
    ("mean", 0, 0),
];

/// A command's name, and a number so often.
fn repeated(name: &str, number: &str, times: usize) -> Vec<String> {
    let mut words = vec![name.to_string()];
    words.resize(times + 1, number.to_string());
    words
}

fn told(ended: &Output) -> Verdict {
    let Output { status, stdout, stderr } = ended;
    if status.success() && stdout.is_empty() && stderr == b"parts: these words are no command\n" {
        return Ok(());
    }
    let (output, errors) = (stdout.escape_ascii(), stderr.escape_ascii());
    Err(format!("ended with {status}, printed \"{output}\", wrote \"{errors}\""))
}

/// The place in the file behind what the program read of it, and what it wrote.
fn read_by(words: &[String]) -> Result<(u64, Output), String> {
    let told = |error: std::io::Error| format!("{TABLE}: {error}");
    let mut file = File::open(TABLE).map_err(told)?;
    let ended = with_file(words, file.try_clone().map_err(told)?)?;
    Ok((file.stream_position().map_err(told)?, ended))
}

/// With no input, and with one of which nothing is read.
fn misused(words: &[String]) -> Verdict {
    let verdict = || {
        told(&with_nothing(words)?)?;
        let (place, ended) = read_by(words)?;
        told(&ended)?;
        expect("the bytes that were read", place, 0)
    };
    verdict().map_err(|wrong| format!("{wrong}; {words:?}"))
}

fn all_misused(cases: &[Vec<String>]) -> Outcome {
    cases.iter().try_for_each(|words| misused(words))?;
    Ok(cases.len() as u64)
}

fn names(_: &Trial) -> Outcome {
    let cases: [&[&str]; 22] = [
        &[],
        &[""],
        &["", ""],
        &["", "price"],
        &["price", ""],
        &[" price"],
        &["price "],
        &["price\n"],
        &["Price"],
        &["PRICE"],
        &["pric"],
        &["prices"],
        &["bill1"],
        &["bills", "1"],
        &["check-"],
        &["check-orders"],
        &["check", "-order"],
        &["unknown"],
        &["unknown", "1"],
        &["1"],
        &["--help"],
        &["price", "price"],
    ];
    all_misused(&cases.map(|words| words.iter().map(|word| word.to_string()).collect()))
}

/// Every number of numbers that a command does not take, up to some more than the most.
fn counts(_: &Trial) -> Outcome {
    let mut cases = Vec::new();
    for (name, least, most) in COMMANDS {
        let wrong = (0..least).chain(most + 1..most + 3);
        cases.extend(wrong.map(|times| repeated(name, "0", times)));
    }
    all_misused(&cases)
}

/// What is no number, in each place of each command in turn.
fn numbers(_: &Trial) -> Outcome {
    let no_numbers = [
        "",
        "x",
        "-1",
        "+1",
        "01",
        "00",
        "-0",
        "-",
        " 1",
        "1 ",
        "1\n",
        "1x",
        "0x1",
        "1.0",
        "1e3",
        "1,000",
        "\u{661}",
        "1000000000000000000",
        "9999999999999999999",
        "18446744073709551615",
        "18446744073709551616",
        "18446744073709551617",
        "36893488147419103232",
    ];
    let mut cases = Vec::new();
    for word in no_numbers {
        for (name, least, _) in COMMANDS.into_iter().filter(|(_, least, _)| *least > 0) {
            for place in 1..=least {
                let mut words = repeated(name, "0", least);
                words[place] = word.to_string();
                cases.push(words);
            }
        }
        cases.push([repeated("append", "0", 3), vec![word.to_string()]].concat());
    }
    all_misused(&cases)
}

/// Arguments about as long as the room for the words, and longer.
fn long(_: &Trial) -> Outcome {
    let mut cases = Vec::new();
    for length in [500, 505, 506, 507, 508, 511, 512, 513, 600, 5_000] {
        for digit in ["0", "1", "x"] {
            let word = digit.repeat(length);
            cases.push(vec![word.clone()]);
            cases.push(vec!["bill".to_string(), word.clone()]);
            cases.push(vec![word, "1".to_string()]);
        }
    }
    cases.push(repeated("append", "0", 600));
    cases.push(repeated("price", "", 600));
    all_misused(&cases)
}

/// The greatest number in every place is one, and the longest command is a command.
fn bounds(_: &Trial) -> Outcome {
    let table = std::fs::read(TABLE).map_err(|error| format!("{TABLE}: {error}"))?;
    let greatest = "999999999999999999";
    let cases = [
        ("bill", 1, "refused 11 0\n"),
        ("uses", 1, "refused 11 0\n"),
        ("reprice", 2, "refused 9 0\n"),
        ("strike", 1, "refused 9 0\n"),
        ("restore", 1, "refused 9 0\n"),
        ("append", 2, "refused 3 6\n"),
        ("append", 18, "refused 3 6\n"),
    ];
    for (name, times, wanted) in cases {
        let words = repeated(name, greatest, times);
        let got = printed(&words, &table)?;
        if got != wanted.as_bytes() {
            return Err(format!("{words:?} printed \"{}\"", got.escape_ascii()));
        }
    }
    Ok(cases.len() as u64)
}

/// A command reads its input to the end, so the place in the file tells what was read.
fn reading(_: &Trial) -> Outcome {
    let length = std::fs::metadata(TABLE).map_err(|error| format!("{TABLE}: {error}"))?.len();
    for (name, least, _) in COMMANDS {
        let (place, _) = read_by(&repeated(name, "0", least))?;
        expect(&format!("the bytes that {name} read"), place, length)?;
    }
    Ok(COMMANDS.len() as u64)
}
