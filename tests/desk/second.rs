//! `compare` and `replay`: a second input stands in a file that the last argument names.

use crate::desk::mutate;
use crate::desk::program::{beside, with_nothing};
use crate::desk::replies::{reply, state, Ask, MOST_INPUT};
use crate::model::inventory::{replayed, Record, MOST_EVENTS, MOST_STOCK};
use crate::model::solver::solve;
use crate::model::text::{closed, parse, written};
use crate::model::*;
use crate::random::Rng;
use crate::tables;
use crate::tables::examples::worked;
use crate::text::checks::describe;
use crate::trial::{Outcome, Test, Trial, Verdict};

pub const TESTS: &[Test] = &[
    Test { name: "desk-second/compared", run: compared },
    Test { name: "desk-second/changed", run: changed },
    Test { name: "desk-second/unread", run: unread },
    Test { name: "desk-second/clerk", run: clerk },
    Test { name: "desk-second/records", run: records },
    Test { name: "desk-second/limits", run: limits },
    Test { name: "desk-second/texts", run: texts },
    Test { name: "desk-second/mutated", run: mutated },
    Test { name: "desk-second/files", run: files },
];

/// What is printed, and whether it is the second input that is refused.
type Printed = (Vec<u8>, bool);

const OF_SECOND: &[u8] = b"parts: that is the second file's\n";

fn holds(fact: bool, wrong: impl Fn() -> String) -> Verdict {
    if fact {
        Ok(())
    } else {
        Err(wrong())
    }
}

/// The program prints this, and standard error tells a refusal of the second input.
fn prints(command: &str, input: &[u8], second: &[u8], wanted: &Printed) -> Verdict {
    let (bytes, of_second) = wanted;
    let ended = beside(command, input, second)?;
    let errors: &[u8] = if *of_second { OF_SECOND } else { b"" };
    if ended.status.success() && ended.stdout == *bytes && ended.stderr == errors {
        return Ok(());
    }
    let (got, told) = (describe(&ended.stdout), ended.stderr.escape_ascii());
    let inputs = format!("{} and {}", describe(input), describe(second));
    Err(format!("{command} printed {got}, wanted {}; wrote \"{told}\"; {inputs}", describe(bytes)))
}

/// The table of a text, or what is printed of one that is refused.
fn read(text: &[u8]) -> Result<(u64, Table), Vec<u8>> {
    let refused = reply(text, &Ask::Check);
    match parse(text) {
        Ok(read) if refused.is_empty() => Ok(read),
        _ => Err(refused),
    }
}

// Comparing ------------------------------------------------------------------------------------

fn rows(first: &(u64, Table), second: &(u64, Table)) -> String {
    let answers = [first, second].map(|(measure, table)| solve(*measure, table));
    let shown = |answers: &Labelling, part: u64| {
        if part >= answers.weights.len() as u64 {
            return "unmade 0".to_string();
        }
        let label = answers.label(part);
        format!("{} {}", state(label), label.weight)
    };
    (0..first.1.n.max(second.1.n))
        .map(|part| (part, shown(&answers[0], part), shown(&answers[1], part)))
        .filter(|(_, before, after)| before != after)
        .map(|(part, before, after)| format!("{part} {before} {after}\n"))
        .collect()
}

fn compares(first: &[u8], second: &[u8]) -> Verdict {
    let wanted = match (read(first), read(second)) {
        (Err(refused), _) => (refused, false),
        (_, Err(refused)) => (refused, true),
        (Ok(first), Ok(second)) => (rows(&first, &second).into_bytes(), false),
    };
    prints("compare", first, second, &wanted)
}

/// Two tables of any families and measures, and each with itself.
fn compared(trial: &Trial) -> Outcome {
    trial.cases(trial.count / 40, |rng| {
        let first = written(rng.pick(&MEASURES), &closed(&tables::any(rng)));
        let second = written(rng.pick(&MEASURES), &closed(&tables::any(rng)));
        compares(&first, &second)?;
        prints("compare", &first, &first, &(vec![], false))
    })
}

/// A table and the same with figures or strikes changed.
fn changed(trial: &Trial) -> Outcome {
    let mut differing = 0;
    let count = trial.cases(trial.count / 20, |rng| {
        let measure = rng.pick(&MEASURES);
        let table = closed(&tables::any(rng));
        let mut other = table.clone();
        for _ in 0..rng.between(0, 4) {
            if table.edges() == 0 {
                break;
            }
            let line = rng.index(table.edges());
            if rng.chance(50) {
                other.own[line] = rng.below(2_000);
            } else {
                other.strikes[line] ^= STRUCK;
            }
        }
        if !rows(&(measure, table.clone()), &(measure, other.clone())).is_empty() {
            differing += 1;
        }
        compares(&written(measure, &table), &written(measure, &other))
    })?;
    holds(differing > 0, || "no two tables differed".to_string())?;
    Ok(count)
}

/// Texts that are no tables, first, second and both; and those that are too long.
fn unread(_: &Trial) -> Outcome {
    let sound = written(COST, &worked());
    let long = vec![b'x'; MOST_INPUT + 1];
    let broken: [&[u8]; 5] = [b"", b"parts 2\n0 5", b"parts 2\n2 5\n", b"parts 1025\n", &long];
    for text in broken {
        compares(text, &sound)?;
        compares(&sound, text)?;
        compares(text, text)?;
        replays(text, b"stock\n")?;
        replays(text, text)?;
        replays(&sound, text)?;
    }
    Ok(30)
}

// Replaying ------------------------------------------------------------------------------------

fn record_text(stock: &[u64], events: &[(u64, u64)]) -> Vec<u8> {
    let counts: String = stock.iter().map(|count| format!(" {count}")).collect();
    let events: String = events.iter().map(|(part, pieces)| format!("{part} {pieces}\n")).collect();
    format!("stock{counts}\n{events}").into_bytes()
}

/// A number without leading zeros and of at most 18 digits, and the place behind it; or the place of
/// the first byte that can't stand there.
fn number(text: &[u8], at: usize) -> Result<(u64, usize), usize> {
    let digits = text[at..].iter().take_while(|byte| byte.is_ascii_digit()).count();
    let leading = digits > 1 && text[at] == b'0';
    match digits {
        0 => Err(at),
        _ if leading => Err(at + 1),
        1..=18 => {
            let value =
                text[at..at + digits].iter().fold(0, |value, &b| 10 * value + u64::from(b - b'0'));
            Ok((value, at + digits))
        }
        _ => Err(at + 18),
    }
}

fn byte(text: &[u8], at: usize, wanted: u8) -> Result<usize, usize> {
    if text.get(at) == Some(&wanted) {
        Ok(at + 1)
    } else {
        Err(at)
    }
}

/// The opening counts and the events, or the place of the first byte that can't stand there.
fn parsed(text: &[u8]) -> Result<(Vec<u64>, Vec<(u64, u64)>), usize> {
    let mut at = b"stock".iter().try_fold(0, |at, &wanted| byte(text, at, wanted))?;
    let mut stock = vec![];
    while byte(text, at, b'\n').is_err() {
        let from = byte(text, at, b' ')?;
        if stock.len() as u64 == MOST_VERTICES {
            return Err(at);
        }
        let (count, behind) = number(text, from)?;
        stock.push(count);
        at = behind;
    }
    at += 1;
    let mut events = vec![];
    while at < text.len() {
        if events.len() == MOST_EVENTS {
            return Err(at);
        }
        let (part, behind) = number(text, at)?;
        let (pieces, behind) = number(text, byte(text, behind, b' ')?)?;
        at = byte(text, behind, b'\n')?;
        events.push((part, pieces));
    }
    Ok((stock, events))
}

fn outcomes_printed(events: &[(u64, u64)], outcomes: &[u64], stock: &[u64]) -> Vec<u8> {
    let words = ["received", "issued", "built", "late"];
    let row = |((part, _), outcome): (&(u64, u64), &u64)| {
        format!("{part} {}\n", words[*outcome as usize])
    };
    let rows: String = events.iter().zip(outcomes).map(row).collect();
    [rows.as_bytes(), &record_text(stock, &[])].concat()
}

fn replay(measure: u64, table: &Table, text: &[u8]) -> Printed {
    if text.len() > MOST_INPUT {
        return (b"refused 17 0\n".to_vec(), true);
    }
    let (stock, events) = match parsed(text) {
        Ok(record) => record,
        Err(place) => {
            let line = 1 + text[..place].iter().filter(|&&byte| byte == b'\n').count();
            let start =
                text[..place].iter().rposition(|&byte| byte == b'\n').map_or(0, |at| at + 1);
            return (format!("refused 14 {line} {}\n", place - start + 1).into_bytes(), true);
        }
    };
    let record = Record::of(&events, &stock, &vec![0; events.len()]);
    let (result, stock, outcomes) = replayed(measure, table, &solve(measure, table), &record);
    if result != 0 {
        let (number, place) = (result >> 32, result & 0xFFFF_FFFF);
        return (format!("refused {number} {place}\n").into_bytes(), true);
    }
    (outcomes_printed(&events, &outcomes, &stock), false)
}

/// The reply is the model's; that is returned.
fn replays(table: &[u8], record: &[u8]) -> Result<Vec<u8>, String> {
    let wanted = match read(table) {
        Err(refused) => (refused, false),
        Ok((measure, table)) => replay(measure, &table, record),
    };
    prints("replay", table, record, &wanted).map(|()| wanted.0)
}

/// The request's example, and the final counts as the opening counts of the next record.
fn clerk(_: &Trial) -> Outcome {
    let table = written(COST, &worked());
    let record = b"stock 1 3 0 0 1\n2 0\n2 0\n2 1\n3 0\n4 0\n4 0\n0 0\n";
    let wanted =
        "2 built\n2 late\n2 received\n3 built\n4 issued\n4 late\n0 late\nstock 0 0 0 0 0\n";
    prints("replay", &table, record, &(wanted.into(), false))?;
    prints("replay", &table, b"stock 0 0 0 0 0\n", &(b"stock 0 0 0 0 0\n".to_vec(), false))?;
    Ok(2)
}

fn any_count(rng: &mut Rng) -> u64 {
    match rng.below(20) {
        0 => MOST_STOCK + rng.below(2),
        1..=6 => 0,
        _ => rng.below(4),
    }
}

fn any_record(rng: &mut Rng, n: u64) -> (Vec<u64>, Vec<(u64, u64)>) {
    let places = if rng.chance(5) { rng.below(n + 3) } else { n };
    let stock = (0..places).map(|_| any_count(rng)).collect();
    let events = (0..rng.below(30)).map(|_| {
        let part = if rng.chance(1) { n + rng.below(3) } else { rng.below(n) };
        let pieces = if rng.chance(60) { 0 } else { rng.pick(&[1, 1, 2, 3, MOST_STOCK]) };
        (part, pieces)
    });
    (stock, events.collect())
}

/// Records on tables of any family; the final counts open the next record.
fn records(trial: &Trial) -> Outcome {
    trial.cases(trial.count / 20, |rng| {
        let table = closed(&tables::any(rng));
        let text = written(rng.pick(&MEASURES), &table);
        let (stock, events) = any_record(rng, table.n);
        let printed = replays(&text, &record_text(&stock, &events))?;
        let Some(start) = printed.windows(5).position(|word| word == b"stock") else {
            return Ok(());
        };
        let (_, more) = any_record(rng, table.n);
        let next = [&printed[start..], &record_text(&[], &more)[6..]].concat();
        replays(&text, &next).map(|_| ())
    })
}

/// As many counts and events as there may be, and one more; the longest record.
fn limits(_: &Trial) -> Outcome {
    let n = MOST_VERTICES;
    let mut table = Table::new(n);
    table.push(n - 1, 5, &[0; 16]);
    let text = written(COST, &table);
    let full = vec![MOST_STOCK; n as usize];
    let orders = vec![(n - 1, 0); MOST_EVENTS];
    let whole = replays(&text, &record_text(&full, &orders))?;
    holds(whole.starts_with(b"1023 issued\n"), || "the longest record is refused".to_string())?;
    replays(&text, &record_text(&vec![0; n as usize + 1], &[]))?;
    replays(&text, &record_text(&full[1..], &orders))?;
    replays(&text, &record_text(&full, &[&orders[..], &[(0, 0)]].concat()))?;
    replays(&text, &[&record_text(&full, &orders)[..], b"x"].concat())?;
    replays(&text, &[&record_text(&vec![0; n as usize], &[])[..2_053], b" x\n"].concat())?;
    replays(&text, &record_text(&vec![999_999_999_999_999_999; n as usize], &[]))?;
    replays(&written(COST, &Table::new(0)), b"stock\n")?;
    Ok(8)
}

fn texts(_: &Trial) -> Outcome {
    let table = written(COST, &worked());
    let broken: [(&str, u64, u64); 16] = [
        ("", 1, 1),
        ("stoc", 1, 5),
        ("stock", 1, 6),
        ("Stock\n", 1, 1),
        ("stock \n", 1, 7),
        ("stock 1 3 0 0 01\n", 1, 16),
        ("stock  1\n", 1, 7),
        ("stock 1000000000000000000\n", 1, 25),
        ("stock 1\n\n", 2, 1),
        ("stock 1\n2\n", 2, 2),
        ("stock 1\n2 0", 2, 4),
        ("stock 1\n2 0 0\n", 2, 4),
        ("stock 1\n2 0\r\n", 2, 4),
        ("stock 1\n2 -1\n", 2, 3),
        ("stock 1\n2 0\n 2 0\n", 3, 1),
        ("stock 1\n2 0\norder 2\n", 3, 1),
    ];
    for (record, line, column) in broken {
        let wanted = format!("refused 14 {line} {column}\n").into_bytes();
        let told = replays(&table, record.as_bytes())?;
        holds(told == wanted, || format!("the model says {} of {record:?}", describe(&told)))?;
    }
    Ok(broken.len() as u64)
}

/// Records with a byte changed, added or left out, or cut.
fn mutated(trial: &Trial) -> Outcome {
    let text = written(COST, &worked());
    trial.cases(trial.count / 20, |rng| {
        let (stock, events) = any_record(rng, 5);
        let mut record = record_text(&stock, &events);
        mutate(rng, &mut record, b"0123456789 -\n\r\tstock\0\xFF");
        replays(&text, &record).map(|_| ())
    })
}

/// A file that is not there, none at all, and numbers where a file belongs.
fn files(_: &Trial) -> Outcome {
    for command in ["compare", "replay"] {
        let words = |words: &[&str]| -> Vec<String> {
            [command].iter().chain(words).map(|word| word.to_string()).collect()
        };
        let cases: [(Vec<String>, &[u8]); 4] = [
            (words(&["examples/missing.parts"]), b"parts: the second file could not be read\n"),
            (words(&["examples"]), b"parts: the second file could not be read\n"),
            (words(&[]), b"parts: these words are no command\n"),
            (words(&["1", "2"]), b"parts: these words are no command\n"),
        ];
        for (words, errors) in cases {
            let ended = with_nothing(&words)?;
            let told = ended.stderr.escape_ascii().to_string();
            holds(ended.stderr == errors && ended.stdout.is_empty(), || {
                format!("{words:?}: {told}")
            })?;
        }
    }
    Ok(8)
}
