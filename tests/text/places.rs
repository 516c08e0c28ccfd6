//! The line and the column at which a text is refused, as stated here; of every other text that the
//! tests read, `reads_into` compares them with what the tests' own reader finds.

use crate::model::places::{begins, behind, place, place_one_by_one};
use crate::model::text::{closed, written};
use crate::model::*;
use crate::random::Rng;
use crate::tables;
use crate::text::checks::{describe, reads, refused_at};
use crate::text::lines::{FIRST, GOOD, LINES};
use crate::text::longest_table;
use crate::text::mutated::small;
use crate::trial::{Outcome, Test, Trial, Verdict};

pub const TESTS: &[Test] = &[
    Test { name: "places/stated", run: stated },
    Test { name: "places/fields", run: fields },
    Test { name: "places/limits", run: at_the_limits },
    Test { name: "places/cut", run: cut },
    Test { name: "places/cut-at-random", run: cut_at_random },
    Test { name: "places/longest-cut", run: longest_cut },
    Test { name: "places/short", run: short },
    Test { name: "places/one-by-one", run: one_by_one },
];

/// Holds if the text is refused just there, whatever columns are lent.
fn stands(text: &[u8], line: u64, column: u64, rng: &mut Rng) -> Verdict {
    let wanted = Some((line, column));
    let found = place(text);
    if found != wanted {
        let places = format!("the tests' own place is {found:?}, wanted {wanted:?}");
        return Err(format!("{places}; {}", describe(text)));
    }
    refused_at(text, wanted).map_err(|wrong| format!("{wrong}; {}", describe(text)))?;
    reads(text, rng)
}

/// The worked places of the request, and a few beside them.
fn stated(trial: &Trial) -> Outcome {
    let seventeen = format!("parts 5\n0 5{}\n", " 1".repeat(17));
    let cases = [
        ("", 1, 1),
        ("\n", 1, 1),
        ("part 5\n", 1, 5),
        ("parts 5", 1, 8),
        ("parts 05\n", 1, 8),
        ("parts 1025\n", 1, 10),
        ("parts 5 days\n", 1, 9),
        ("parts 0\n0 0\n", 2, 1),
        ("parts 5\n0\n", 2, 2),
        ("parts 5\n0 1000000001\n", 2, 12),
        ("parts 5\n0 -\n", 2, 4),
        ("parts 5\n0 5  1\n", 2, 5),
        (&seventeen, 2, 36),
        ("parts 5\n0 5 9\n", 2, 5),
        ("parts 5\n0 1\n0", 3, 2),
        // The table of examples/broken.parts.
        ("parts 5 cost\n0 1200\n1 300\n2 500 0 9\n2 2100\n", 4, 9),
        ("p", 1, 2),
        ("parts", 1, 6),
        ("parts ", 1, 7),
        ("parts\n", 1, 6),
        ("parts 5 ", 1, 9),
        ("parts 5 day\n", 1, 9),
        ("parts 5 Days\n", 1, 9),
        ("parts 5 Cost\n", 1, 9),
        ("parts 5 COST\n", 1, 9),
        ("parts 5  cost\n", 1, 9),
        ("parts 5\tcost\n", 1, 8),
        ("parts 5 c", 1, 10),
        ("parts 5 c\n", 1, 10),
        ("parts 5 cos\n", 1, 12),
        ("parts 5 costs\n", 1, 13),
        ("parts 5 cost \n", 1, 13),
        ("parts 5 cost\r\n", 1, 13),
        ("parts 5 cost", 1, 13),
        ("parts 5 cost\n", 0, 0),
        ("parts 5 grape\n", 1, 12),
        ("parts 5 grades\n", 1, 14),
        ("parts 5 g", 1, 10),
        ("parts 5 g\n", 1, 10),
        ("parts 5 gost\n", 1, 10),
        ("parts 5 crade\n", 1, 10),
        ("parts 5 Grade\n", 1, 9),
        ("parts 5  grade\n", 1, 9),
        ("parts 5\tgrade\n", 1, 8),
        ("parts 5 grade \n", 1, 14),
        ("parts 5 grade\r\n", 1, 14),
        ("parts 5 grade", 1, 14),
        ("parts 5 grade\n", 0, 0),
        ("parts 5\n", 0, 0),
        ("parts 5\r\n", 1, 8),
        ("parts 5\n\n", 2, 1),
        ("parts 5\n0 1\n\n", 3, 1),
        ("parts 5\n0 1\n\0", 3, 1),
        ("parts 5\n0 1\0\n", 2, 4),
        ("parts 5\n0 1\0", 2, 4),
        ("\0", 1, 1),
        ("\u{feff}parts 5\n", 1, 1),
    ];
    let mut rng = trial.rng();
    for (text, line, column) in cases {
        match line {
            0 => reads(text.as_bytes(), &mut rng)?,
            _ => stands(text.as_bytes(), line, column, &mut rng)?,
        }
    }
    Ok(cases.len() as u64)
}

/// Fields of the second line that break, with the byte of the field that does, counted from 1: the
/// column is that of the field's start and so many bytes, wherever the field stands.
fn fields(trial: &Trial) -> Outcome {
    // Where n is 12.
    let parts = [
        ("12", 2),
        ("13", 2),
        ("20", 2),
        ("110", 3),
        ("00", 2),
        ("01", 2),
        ("-1", 1),
        ("+1", 1),
        ("x", 1),
        ("1x", 2),
        ("11x", 3),
        ("\t", 1),
        ("1\t", 2),
        ("999999999999999999999999", 2),
    ];
    let figures = [
        ("1000000001", 10),
        ("1000000010", 10),
        ("2000000000", 10),
        ("10000000000", 11),
        ("18446744073709551617", 10),
        ("00", 2),
        ("05", 2),
        ("1.5", 2),
        ("1,200", 2),
        ("1-", 2),
        ("+1", 1),
        ("x", 1),
    ];
    let mut rng = trial.rng();
    let mut cases = 0;
    let mut breaks = |before: &str, field: &str, byte: u64, after: &str| {
        let text = format!("parts 12\n{before}{field}{after}\n");
        cases += 1;
        stands(text.as_bytes(), 2, before.len() as u64 + byte, &mut rng)
    };
    for (field, byte) in parts {
        breaks("", field, byte, " 1")?;
        for before in ["0 1 ", "11 -1000000000 11 ", "10 0 1 2 3 4 5 6 7 8 9 10 11 1 2 3 4 "] {
            breaks(before, field, byte, "")?;
            breaks(before, field, byte, " 1")?;
        }
    }
    for (field, byte) in figures {
        for before in ["0 ", "11 "] {
            breaks(before, field, byte, "")?;
            breaks(before, &format!("-{field}"), byte + 1, " 1")?;
        }
    }
    for (field, byte) in [("-", 2), ("--5", 2), ("- 5", 2), ("", 1), (" 5", 1)] {
        breaks("11 ", field, byte, "")?;
    }
    Ok(cases)
}

fn at_the_limits(trial: &Trial) -> Outcome {
    let mut rng = trial.rng();
    let mut cases: Vec<(String, u64, u64)> = vec![];
    for line in ["0 0\n", "0", "\n", "x", "-", " "] {
        for first in ["parts 0\n", "parts 0 cost\n"] {
            cases.push((format!("{first}{line}"), 2, 1));
        }
        // The 4,097th line, whatever it holds.
        cases.push((format!("parts 2\n{}{line}", "1 7 0\n".repeat(4_096)), 4_098, 1));
    }
    for own in ["0", "-0", "1000000000", "-1000000000"] {
        for part in ["0", "1023"] {
            // The space before the 17th part.
            let sixteen = format!("{part} {own}{}", format!(" {part}").repeat(16));
            let column = sixteen.len() as u64 + 1;
            for rest in ["", " ", " 0", " 0\n", " x", "  "] {
                cases.push((format!("parts 1024\n0 0\n{sixteen}{rest}"), 3, column));
            }
        }
    }
    // The longest line before its fault.
    let longest = format!("parts 1024\n1023 -1000000000{} ", " 1023".repeat(16));
    cases.push((longest, 2, 97));
    // The space before the part that passes 16,384 in all.
    let sixteen = format!("1 7{}\n", " 0".repeat(16));
    let full = format!("parts 2\n{}", sixteen.repeat(1_024));
    for rest in ["0 0 1\n", "0 0 1 1\n", "0 0 ", "0 0 x\n"] {
        cases.push((format!("{full}{rest}"), 1_026, 4));
    }
    let almost = format!("parts 2\n{}0 -7{}\n", sixteen.repeat(1_023), " 1".repeat(13));
    for rest in ["1 0 0 0 0 0\n", "1 0 0 0 0", "1 0 0 0 0 \n"] {
        cases.push((format!("{almost}{rest}"), 1_026, 10));
    }
    for (text, line, column) in &cases {
        stands(text.as_bytes(), *line, *column, &mut rng)?;
    }
    Ok(cases.len() as u64)
}

/// A permitted text cut anywhere is permitted, or refused just where it ends, in the line of its last
/// byte.
fn cut_to(text: &[u8], length: usize, rng: &mut Rng) -> Verdict {
    let left = &text[..length];
    if !begins(left) {
        return Err(format!("the tests' own reader can't end it; {}", describe(left)));
    }
    if place(left).is_none() {
        return reads(left, rng);
    }
    if left.last() == Some(&b'\n') {
        return Err(format!("refused behind an LF; {}", describe(left)));
    }
    let (line, column) = behind(left);
    stands(left, line, column, rng)
}

fn cut(trial: &Trial) -> Outcome {
    let mut rng = trial.rng();
    let mut cases = 0;
    for text in small() {
        for length in 0..=text.len() {
            cut_to(&text, length, &mut rng)?;
            cases += 1;
        }
    }
    Ok(cases)
}

fn cut_at_random(trial: &Trial) -> Outcome {
    trial.cases(trial.count / 4, |rng| {
        let text = written(rng.pick(&MEASURES), &closed(&tables::any(rng)));
        (0..4).try_for_each(|_| cut_to(&text, rng.index(text.len() + 1), rng))
    })
}

fn longest_cut(trial: &Trial) -> Outcome {
    let text = written(COST, &longest_table());
    trial.cases(4, |rng| cut_to(&text, text.len() - 1 - rng.index(40), rng))
}

/// All short texts of a few bytes, behind every beginning of a text with all kinds of fields.
fn short(trial: &Trial) -> Outcome {
    let bytes = b"pac 015-\n\0";
    let whole = b"parts 10 cost\n0 10 1\n9 -1\n";
    let mut rng = trial.rng();
    let mut cases = 0;
    for start in 0..=whole.len() {
        for length in 0..=3 {
            for number in 0..bytes.len().pow(length) {
                let mut text = whole[..start].to_vec();
                let byte = |place| bytes[number / bytes.len().pow(place) % bytes.len()];
                text.extend((0..length).map(byte));
                reads(&text, &mut rng)?;
                cases += 1;
            }
        }
    }
    Ok(cases)
}

/// The first beginning that begins nothing, found by halving and by trying each.
fn one_by_one(trial: &Trial) -> Outcome {
    let mut texts: Vec<Vec<u8>> = FIRST.iter().map(|line| line.as_bytes().to_vec()).collect();
    for line in LINES.iter().chain(GOOD) {
        texts.push(format!("parts 5\n4 7 0\n{line}\n0 1\n").into_bytes());
    }
    for text in small() {
        for place in 0..text.len() {
            for byte in b"01 \n-c" {
                texts.push([&text[..place], &[*byte], &text[place + 1..]].concat());
            }
        }
    }
    let mut rng = trial.rng();
    for text in &texts {
        let (halved, tried) = (place(text), place_one_by_one(text));
        if halved != tried {
            return Err(format!("{halved:?}, but {tried:?} by trying each; {}", describe(text)));
        }
        reads(text, &mut rng)?;
    }
    Ok(texts.len() as u64)
}
