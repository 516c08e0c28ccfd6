//! `mean`: samples as texts, a result on each line, beside the model's fractions.

use crate::desk::program::printed;
use crate::desk::replies::MOST_INPUT;
use crate::model::statistics::{summarized, GREATEST_RESULT, MOST_RESULTS};
use crate::trial::{Outcome, Test, Trial, Verdict};

pub const TESTS: &[Test] = &[
    Test { name: "desk-mean/samples", run: samples },
    Test { name: "desk-mean/limits", run: limits },
    Test { name: "desk-mean/texts", run: texts },
];

/// What the program prints of this text.
fn prints(text: &[u8], wanted: &str) -> Verdict {
    let reply = printed(&["mean".to_string()], text)?;
    if reply == wanted.as_bytes() {
        return Ok(());
    }
    let start = text[..text.len().min(80)].escape_ascii().to_string();
    Err(format!("of \"{start}\" it prints {}, and not {wanted:?}", reply.escape_ascii()))
}

/// The reply to a sample's text is the model's.
fn replies(results: &[u64]) -> Verdict {
    let text: String = results.iter().map(|result| format!("{result}\n")).collect();
    let (number, moments) = summarized(results);
    let wanted = match moments {
        Some([mean, over, variance, below]) => format!("{mean} {over}\n{variance} {below}\n"),
        None => format!("refused {} {}\n", number >> 32, number & 0xFFFF_FFFF),
    };
    prints(text.as_bytes(), &wanted)
}

fn samples(trial: &Trial) -> Outcome {
    trial.cases(40, |rng| {
        let greatest = rng.pick(&[0, 1, 9, 1_000, GREATEST_RESULT, GREATEST_RESULT + 1]);
        let results: Vec<u64> = (0..rng.between(1, 40)).map(|_| rng.between(0, greatest)).collect();
        replies(&results)
    })
}

fn limits(_: &Trial) -> Outcome {
    replies(&[])?;
    replies(&[7; MOST_RESULTS])?;
    replies(&[GREATEST_RESULT; MOST_RESULTS])?;
    replies(&[7; MOST_RESULTS + 1])?;
    replies(&[999_999_999_999_999_999])?;
    // one result too many is told before a line behind it is looked at
    prints(&[&b"7\n".repeat(MOST_RESULTS + 1)[..], b"x"].concat(), "refused 22 0\n")?;
    prints(&[&b"7\n".repeat(MOST_RESULTS)[..], b"x"].concat(), "refused 14 1001 1\n")?;
    prints(&vec![b'7'; MOST_INPUT + 1], "refused 17 0\n")?;
    Ok(8)
}

fn texts(_: &Trial) -> Outcome {
    let broken: [(&str, u64, u64); 11] = [
        ("7", 1, 2),
        ("7\n8", 2, 2),
        ("\n", 1, 1),
        ("7\n\n8\n", 2, 1),
        ("07\n", 1, 2),
        ("7 \n", 1, 2),
        (" 7\n", 1, 1),
        ("-7\n", 1, 1),
        ("7\r\n", 1, 2),
        ("7\n1000000000000000000\n", 2, 19),
        ("7\nseven\n", 2, 1),
    ];
    for (text, line, column) in broken {
        prints(text.as_bytes(), &format!("refused 14 {line} {column}\n"))?;
    }
    Ok(broken.len() as u64)
}
