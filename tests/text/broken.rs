//! Texts that break the form or a limit, with the text line that does, as it is stated here and as
//! the tests' own reader finds it.

use crate::model::text::parse;
use crate::model::*;
use crate::random::Rng;
use crate::text::checks::{describe, reads};
use crate::text::lines::{FIRST, GOOD, LINES};
use crate::trial::{expect, Outcome, Test, Trial, Verdict};

pub const TESTS: &[Test] = &[
    Test { name: "broken/whole", run: whole },
    Test { name: "broken/first-line", run: first_lines },
    Test { name: "broken/table-line", run: table_lines },
    Test { name: "broken/earlier-wins", run: earlier_wins },
    Test { name: "broken/end", run: ends },
    Test { name: "broken/bounds", run: bounds },
    Test { name: "broken/struck", run: struck },
    Test { name: "broken/long-words", run: long_words },
    Test { name: "broken/tail-length", run: tail_length },
    Test { name: "broken/too-many-lines", run: too_many_lines },
    Test { name: "broken/too-many-listed", run: too_many_listed },
];

/// Holds if the text is refused at this line; 0 stands for accepted.
fn breaks_at(text: &str, line: u64, rng: &mut Rng) -> Verdict {
    let text = text.as_bytes();
    let found = parse(text).err().unwrap_or(0);
    expect("the line found by the tests' own reader", found, line)
        .map_err(|wrong| format!("{wrong}; {}", describe(text)))?;
    reads(text, rng)
}

fn all_break(cases: &[(String, u64)], rng: &mut Rng) -> Outcome {
    cases.iter().try_for_each(|(text, line)| breaks_at(text, *line, rng))?;
    Ok(cases.len() as u64)
}

fn whole(trial: &Trial) -> Outcome {
    let cases = [
        ("", 1),
        ("\n", 1),
        ("\n\n", 1),
        (" ", 1),
        ("parts 5", 1),
        ("parts 5 cost", 1),
        ("parts 5\r\n", 1),
        ("parts 5\r0 1\r", 1),
        ("\nparts 5\n", 1),
        ("0 1\nparts 5\n", 1),
        ("parts 5 days\n0 1\n", 1),
        ("Parts 5\n", 1),
        ("parts 1025\n", 1),
        ("parts 1025\n1024 0\n", 1),
        ("parts 5\n\n", 2),
        ("parts 5\n0 1\n\n", 3),
        ("parts 5\n\n0 1\n", 2),
        ("parts 5\n0 1", 2),
        ("parts 5\n0 1\n0", 3),
        ("parts 5\n0 1\n ", 3),
        ("parts 5\n0 1\n\0", 3),
        ("parts 5\nparts 5\n", 2),
        ("parts 5\n0 1\nparts 5\n0 1\n", 3),
        ("parts 0\n0 0\n", 2),
        ("parts 0\n0 -\n", 2),
        ("parts 0\n\n", 2),
        ("parts 0\n0", 2),
        ("parts 0 cost\n0 0 0\n0 0\n", 2),
    ];
    all_break(&cases.map(|(text, line)| (text.to_string(), line)), &mut trial.rng())
}

/// With nothing behind the line, with sound lines, with a broken one, and without an LF.
fn first_lines(trial: &Trial) -> Outcome {
    let mut rng = trial.rng();
    for line in FIRST {
        for behind in ["", "\n", "\n0 1\n", "\n0 1\n1 -3 0\n", "\n5 5 5\n"] {
            breaks_at(&format!("{line}{behind}"), 1, &mut rng)?;
        }
    }
    Ok(FIRST.len() as u64)
}

/// A text of 5 vertices with these lines.
fn text_of(lines: &[&str], rng: &mut Rng) -> String {
    let first = rng.pick(&["parts 5\n", "parts 5 cost\n"]);
    lines.iter().fold(first.to_string(), |text, line| text + line + "\n")
}

/// Sound lines, as many as asked for.
fn sound(lines: usize, rng: &mut Rng) -> Vec<&'static str> {
    (0..lines).map(|_| rng.pick(GOOD)).collect()
}

/// Each broken line among sound ones, at every place; the sound ones alone are accepted.
fn table_lines(trial: &Trial) -> Outcome {
    let mut rng = trial.rng();
    breaks_at(&text_of(GOOD, &mut rng), 0, &mut rng)?;
    for line in LINES {
        for before in 0..5 {
            let mut lines = sound(5, &mut rng);
            breaks_at(&text_of(&lines, &mut rng), 0, &mut rng)?;
            lines[before] = line;
            breaks_at(&text_of(&lines, &mut rng), before as u64 + 2, &mut rng)?;
        }
    }
    Ok(LINES.len() as u64)
}

fn earlier_wins(trial: &Trial) -> Outcome {
    trial.cases(trial.count, |rng| {
        let length = 2 + rng.index(8);
        let mut lines = sound(length, rng);
        let first = rng.index(length);
        lines[first] = rng.pick(LINES);
        for _ in 0..rng.between(1, 3) {
            let later = first + rng.index(length - first);
            lines[later] = rng.pick(LINES);
        }
        breaks_at(&text_of(&lines, rng), first as u64 + 2, rng)
    })
}

/// Sound lines with bytes behind the last LF, with the last LF missing, and with LFs too many.
fn ends(trial: &Trial) -> Outcome {
    trial.cases(trial.count / 4, |rng| {
        let length = rng.index(6);
        let lines = sound(length, rng);
        let text = text_of(&lines, rng);
        let behind = length as u64 + 2;
        for rest in ["0", "0 ", "0 1", "0 1 2", "-", " ", "\r", "\0", "\t", "x", "parts 5", "\n"] {
            breaks_at(&format!("{text}{rest}"), behind, rng)?;
        }
        breaks_at(&format!("{text}\n\n{text}"), behind, rng)?;
        breaks_at(&text[..text.len() - 1], behind - 1, rng)
    })
}

/// The greatest number at each place, and the first one that is too great.
fn bounds(trial: &Trial) -> Outcome {
    let mut rng = trial.rng();
    for n in 1..=MOST_VERTICES {
        let above = [n, n + 1, 10 * n, n + (1 << 32)];
        for vertex in above {
            breaks_at(&format!("parts {n}\n{vertex} 0\n"), 2, &mut rng)?;
            breaks_at(&format!("parts {n}\n0 -7 {}\n0 0 {vertex}\n", n - 1), 3, &mut rng)?;
        }
        breaks_at(&format!("parts {n}\n{} 0 {}\n", n - 1, n - 1), 0, &mut rng)?;
        breaks_at(&format!("parts {}\n", n + MOST_VERTICES), 1, &mut rng)?;
    }
    for own in (0..2_000).map(|above| GREATEST + 1 + above) {
        breaks_at(&format!("parts 1\n0 {own}\n"), 2, &mut rng)?;
        breaks_at(&format!("parts 1\n0 -{own}\n"), 2, &mut rng)?;
    }
    Ok(MOST_VERTICES)
}

/// The own field of a struck line, at any line: a dash and the kept figure.
fn struck(trial: &Trial) -> Outcome {
    let fields = [
        ("-500", true),
        ("-0", true),
        ("-1000000000", true),
        ("-", false),
        ("- 5", false),
        ("--5", false),
        ("-05", false),
        ("-1000000001", false),
        ("1000000001", false),
    ];
    let mut rng = trial.rng();
    let mut cases = 0;
    for before in 0..5 {
        for (field, is_permitted) in fields {
            for listed in ["", " 4", " 0 0"] {
                let line = format!("3 {field}{listed}");
                let mut lines = sound(before, &mut rng);
                lines.push(&line);
                lines.extend(sound(2, &mut rng));
                let place = if is_permitted { 0 } else { before as u64 + 2 };
                breaks_at(&text_of(&lines, &mut rng), place, &mut rng)?;
                cases += 1;
            }
        }
    }
    Ok(cases)
}

/// 64 KiB of digits or of other bytes where a number must stand.
fn long_words(trial: &Trial) -> Outcome {
    let mut cases = Vec::new();
    for byte in ["0", "1", "9", "-", " ", "\n", "\0", "a"] {
        let long = byte.repeat(1 << 16);
        for number in [long.clone(), format!("1{long}"), format!("{long}1")] {
            // An LF, or a space and a number, may be right at first.
            let after = u64::from(byte == "\n");
            let behind_one = after * u64::from(number.starts_with('1'));
            cases.push((format!("parts {number}\n"), 1 + behind_one));
            cases.push((format!("parts 5\n{number} 1\n"), 2));
            cases.push((format!("parts 5\n0 {number}\n"), 2 + behind_one));
            cases.push((format!("parts 5\n0 1 {number}\n0 1\n"), 2 + behind_one));
            cases.push((format!("parts 5\n0 1\n{number}"), 3));
        }
    }
    all_break(&cases, &mut trial.rng())
}

/// 16 listed are accepted, 17 and more are refused, on a struck line too.
fn tail_length(trial: &Trial) -> Outcome {
    let mut cases = Vec::new();
    for length in 0..=40 {
        for own in ["0", "1000000000", "-0", "-1000000000"] {
            let text = format!("parts 12\n0 1\n3 {own}{}\n0 1\n", " 11".repeat(length));
            cases.push((text, if length <= LONGEST_TAIL { 0 } else { 3 }));
        }
    }
    all_break(&cases, &mut trial.rng())
}

/// 4,096 lines are accepted; the next is refused at text line 4,098, whatever it holds.
fn too_many_lines(trial: &Trial) -> Outcome {
    let full = format!("parts 2\n{}", "1 7 0\n".repeat(4_096));
    let mut cases = vec![(full.clone(), 0)];
    for behind in ["0 0\n", "0 0\n0 0\n", "0 0", "0", "\n", "2 0\n", "0 0\n\n", "parts 2\n"] {
        cases.push((format!("{full}{behind}"), 4_098));
    }
    let more = "0 0\n".repeat(5_000);
    cases.push((format!("{full}{more}"), 4_098));
    cases.push((format!("parts 2\n2 0\n{more}"), 2));
    cases.push((format!("{}2 0\n{more}", &full[..full.len() - 6]), 4_097));
    cases.push((full[..full.len() - 1].to_string(), 4_097));
    all_break(&cases, &mut trial.rng())
}

/// 16,384 listed are accepted; the line that passes them is refused, and not one behind it.
fn too_many_listed(trial: &Trial) -> Outcome {
    let sixteen = format!("1 7{}\n", " 0".repeat(16));
    let almost = format!("parts 2\n{}", sixteen.repeat(1_023));
    let full = format!("{almost}{sixteen}");
    let mut cases = vec![];
    for (behind, line) in [
        ("", 0),
        ("0 0\n1 -8\n", 0),
        ("0 0 1\n", 1_026),
        ("0 -8 1\n0 1\n", 1_026),
        ("0 0\n0 0\n0 0 1\n0 0\n", 1_028),
        ("0 0\n0 0 2\n", 1_027),
        ("0 0 0\n0 0 0\n2 0\n", 1_026),
    ] {
        cases.push((format!("{full}{behind}"), line));
    }
    for length in 1..=16 {
        let last = |listed: usize| format!("0 0{}\n", " 1".repeat(listed));
        cases.push((format!("{almost}{}{}", last(length), last(16 - length)), 0));
        cases.push((format!("{almost}{}{}", last(length), last(17 - length)), 1_026));
    }
    let fours = format!("parts 2\n{}", "1 7 0 0 0 0\n".repeat(4_096));
    cases.push((format!("{fours}0 0 0\n"), 4_098));
    cases.push((fours, 0));
    all_break(&cases, &mut trial.rng())
}
