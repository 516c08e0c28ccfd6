//! The program for the desks: every reply compared with the model's, on sound texts and broken ones.

pub mod limits;
pub mod mean;
mod program;
mod replies;
pub mod second;
pub mod words;

use crate::append::lent::any_line;
use crate::desk::replies::{changes, prints, replies, Ask};
use crate::model::text::{closed, written};
use crate::model::*;
use crate::random::Rng;
use crate::reprice::changes::any_change;
use crate::tables;
use crate::tables::damage::Call;
use crate::tables::examples::{examples, worked};
use crate::text::lines::{FIRST, GOOD, LINES};
use crate::text::mutated::small;
use crate::trial::{Outcome, Test, Trial, Verdict};

pub const TESTS: &[Test] = &[
    Test { name: "desk/stated", run: stated },
    Test { name: "desk/week", run: week },
    Test { name: "desk/examples", run: of_examples },
    Test { name: "desk/prices", run: |trial| random(trial, prices) },
    Test { name: "desk/bills", run: |trial| random(trial, bills) },
    Test { name: "desk/uses", run: |trial| random(trial, uses) },
    Test { name: "desk/changes", run: |trial| random(trial, changed) },
    Test { name: "desk/appending", run: |trial| random(trial, appended) },
    Test { name: "desk/orders", run: orders },
    Test { name: "desk/broken", run: broken },
    Test { name: "desk/mutated", run: mutated },
];

const WEEK: &str = "examples/week.parts";

fn week_text() -> Result<Vec<u8>, String> {
    std::fs::read(WEEK).map_err(|error| format!("{WEEK}: {error}"))
}

/// Replies to commands on the paper's table, written out.
fn stated(_: &Trial) -> Outcome {
    let text = week_text()?;
    let whole = String::from_utf8_lossy(&text).into_owned();
    let list = "part state figure depth line pieces\n0 made 1200 1 0 1\n1 made 300 1 1 1\n\
                2 made 2000 2 2 2\n3 made 2600 3 4 4\n4 unmade 0 0 0 0\n";
    let bill = "4 3 0\n2 2 500\n0 0 1200\n1 1 300\n1 1 300\n1 1 300\n3 made 2600\n";
    let over = GREATEST + 1;
    let reprice = |line, figure| Ask::Change(Change::Reprice(line, figure));
    let strike = |line| Ask::Change(Change::Strike(line));
    let restore = |line| Ask::Change(Change::Restore(line));
    let append = |head, figure, needed: &[u64]| Ask::Append(head, figure, needed.to_vec());
    let cases = [
        (Ask::Price, list.to_string()),
        (Ask::Bill(3), bill.to_string()),
        (Ask::Bill(0), "0 0 1200\n0 made 1200\n".to_string()),
        (Ask::Bill(4), "refused 12 0\n".to_string()),
        (Ask::Bill(5), "refused 11 0\n".to_string()),
        (Ask::Uses(1), "2 2 500 0 1\n4 3 0 2 1 1\n".to_string()),
        (Ask::Uses(3), String::new()),
        (Ask::Uses(4), "5 4 10 4\n".to_string()),
        (Ask::Uses(5), "refused 11 0\n".to_string()),
        (reprice(1, 350), whole.replace("\n1 300\n", "\n1 350\n")),
        (reprice(1, over), "refused 10 0\n".to_string()),
        (reprice(6, over), "refused 9 0\n".to_string()),
        (strike(2), whole.replace("\n2 500 ", "\n2 -500 ")),
        (strike(6), "refused 9 0\n".to_string()),
        (restore(5), "refused 20 0\n".to_string()),
        (restore(6), "refused 9 0\n".to_string()),
        (append(4, 100, &[0, 0, 1]), format!("{whole}4 100 0 0 1\n")),
        (append(4, 100, &[]), format!("{whole}4 100\n")),
        (append(4, 0, &[1; 16]), format!("{whole}4 0{}\n", " 1".repeat(16))),
        (append(5, over, &[5]), "refused 3 6\n".to_string()),
        (append(4, over, &[5]), "refused 4 6\n".to_string()),
        (append(4, 100, &[0, 5]), "refused 6 6\n".to_string()),
        (Ask::Check, String::new()),
        (Ask::CheckOrder, "refused 24 5\n".to_string()),
    ];
    for (ask, wanted) in &cases {
        prints(&text, ask, wanted.as_bytes())?;
        replies(&text, ask)?;
    }
    Ok(cases.len() as u64)
}

/// Every command on each part and each line, and on the first that is not there.
fn every_command(measure: u64, table: &Table) -> Verdict {
    let text = written(measure, table);
    for ask in [Ask::Price, Ask::Check, Ask::CheckOrder] {
        replies(&text, &ask)?;
    }
    for part in 0..=table.n {
        replies(&text, &Ask::Bill(part))?;
        replies(&text, &Ask::Uses(part))?;
        changes(measure, table, &Ask::Append(part, 7, vec![0, 0]))?;
        changes(measure, table, &Ask::Append(0, 7, vec![part]))?;
    }
    for line in 0..=table.edges() as u64 {
        for change in line_changes(line) {
            changes(measure, table, &Ask::Change(change))?;
        }
    }
    Ok(())
}

fn line_changes(line: u64) -> [Change; 4] {
    [
        Change::Reprice(line, 0),
        Change::Reprice(line, GREATEST + 1),
        Change::Strike(line),
        Change::Restore(line),
    ]
}

/// The paper's table in all measures, as it is and with each line struck.
fn week(_: &Trial) -> Outcome {
    let table = worked();
    if week_text()? != written(COST, &table) {
        return Err(format!("{WEEK} is not the worked table"));
    }
    for measure in MEASURES {
        every_command(measure, &table)?;
    }
    for line in 0..table.edges() {
        let mut struck = table.clone();
        struck.strikes[line] = STRUCK;
        every_command(COST, &struck)?;
    }
    Ok(9)
}

fn of_examples(_: &Trial) -> Outcome {
    let examples = examples();
    for example in &examples {
        every_command(example.measure, &example.table)
            .map_err(|wrong| format!("{}: {wrong}", example.name))?;
    }
    Ok(examples.len() as u64)
}

/// Tables of any family, each in all measures.
fn random(trial: &Trial, case: fn(&mut Rng, u64, &Table) -> Verdict) -> Outcome {
    trial.cases(trial.count / 33, |rng| {
        let table = closed(&tables::any(rng));
        MEASURES.into_iter().try_for_each(|measure| case(rng, measure, &table))
    })
}

fn prices(_: &mut Rng, measure: u64, table: &Table) -> Verdict {
    let text = written(measure, table);
    replies(&text, &Ask::Price)?;
    prints(&text, &Ask::Check, b"")
}

/// A part of the table, now and then one that is not there.
fn any_part(rng: &mut Rng, table: &Table) -> u64 {
    if rng.chance(10) {
        table.n + rng.below(3)
    } else {
        rng.below(table.n)
    }
}

fn bills(rng: &mut Rng, measure: u64, table: &Table) -> Verdict {
    let text = written(measure, table);
    for part in [0, table.n - 1, any_part(rng, table), any_part(rng, table)] {
        replies(&text, &Ask::Bill(part))?;
    }
    Ok(())
}

fn uses(rng: &mut Rng, measure: u64, table: &Table) -> Verdict {
    let text = written(measure, table);
    for part in [0, any_part(rng, table), any_part(rng, table)] {
        replies(&text, &Ask::Uses(part))?;
    }
    Ok(())
}

/// A change that is accepted, unless the table has no line, and one of any line.
fn changed(rng: &mut Rng, measure: u64, table: &Table) -> Verdict {
    let change = any_change(rng, &Call::solved(measure, table.clone()));
    changes(measure, table, &Ask::Change(change))?;
    let line = rng.below(table.edges() as u64 + 2);
    changes(measure, table, &Ask::Change(rng.pick(&line_changes(line))))
}

/// A line that is accepted, and one with a number that is not.
fn appended(rng: &mut Rng, measure: u64, table: &Table) -> Verdict {
    let (mut head, mut figure, _, mut needed) = any_line(rng, table.n);
    changes(measure, table, &Ask::Append(head, figure, needed.clone()))?;
    for _ in 0..rng.between(1, 2) {
        match rng.below(3) {
            0 => head = table.n + rng.below(3),
            1 => figure = GREATEST + rng.between(1, 3),
            _ if needed.is_empty() => needed.push(table.n),
            _ => {
                let place = rng.index(needed.len());
                needed[place] = table.n + rng.below(3);
            }
        }
    }
    changes(measure, table, &Ask::Append(head, figure, needed))
}

/// The table without the lines that list their head or a higher part, and with one of them.
fn orders(trial: &Trial) -> Outcome {
    trial.cases(trial.count / 33, |rng| {
        let table = closed(&tables::any(rng));
        let mut kept = Table::new(table.n);
        for line in 0..table.edges() {
            let (head, tail) = (table.heads[line], table.tail(line));
            if tail.iter().all(|&part| part < head) || rng.chance(3) {
                kept.push_marked(head, table.own[line], table.strikes[line], tail);
            }
        }
        let measure = rng.pick(&MEASURES);
        replies(&written(measure, &table), &Ask::CheckOrder)?;
        replies(&written(measure, &kept), &Ask::CheckOrder).map(|_| ())
    })
}

fn any_ask(rng: &mut Rng) -> Ask {
    let number = rng.below(6);
    match rng.below(9) {
        0 => Ask::Price,
        1 => Ask::Bill(number),
        2 => Ask::Uses(number),
        3 => Ask::Append(number, rng.below(50), vec![rng.below(6)]),
        4 => Ask::CheckOrder,
        5..=7 => Ask::Change(rng.pick(&line_changes(number))),
        _ => Ask::Check,
    }
}

/// First lines and table lines that break a rule, among sound ones.
fn broken(trial: &Trial) -> Outcome {
    let mut rng = trial.rng();
    for line in FIRST {
        let text = format!("{line}\n0 1\n");
        replies(text.as_bytes(), &any_ask(&mut rng))?;
    }
    for line in LINES {
        let lines = [rng.pick(GOOD), line, rng.pick(GOOD)];
        let text = format!("parts 5 cost\n{}\n", lines.join("\n"));
        replies(text.as_bytes(), &any_ask(&mut rng))?;
    }
    for text in ["", "\n", "p", "parts 5", "parts 5\n0 1", "parts 5\n0 1\n\0"] {
        replies(text.as_bytes(), &any_ask(&mut rng))?;
    }
    Ok((FIRST.len() + LINES.len() + 6) as u64)
}

/// A byte is changed, added or left out, or the text is cut.
fn mutate(rng: &mut Rng, text: &mut Vec<u8>, bytes: &[u8]) {
    let place = rng.index(text.len());
    let byte = rng.pick(bytes);
    match rng.below(4) {
        0 => text[place] = byte,
        1 => text.insert(place, byte),
        2 => text.truncate(place),
        _ => drop(text.remove(place)),
    }
}

/// Texts with a byte changed, added or left out, or cut; some are still permitted.
fn mutated(trial: &Trial) -> Outcome {
    let small = small();
    trial.cases(trial.count / 10, |rng| {
        let mut text = small[rng.index(small.len())].clone();
        if rng.chance(50) {
            text = written(rng.pick(&MEASURES), &closed(&tables::any(rng)));
        }
        mutate(rng, &mut text, b"0123456789 -\n\r\tpcg\0\xFF");
        replies(&text, &any_ask(rng)).map(|_| ())
    })
}
