//! What the program must print, by the model: of a text and a command.

use crate::desk::program::printed;
use crate::model::growth::Growth;
use crate::model::order::order_result;
use crate::model::places::place;
use crate::model::solver::{bill_outcome, change_result, changed, refusal, solve};
use crate::model::text::{parse, write_result, written};
use crate::model::*;
use crate::text::checks::describe;
use crate::trial::Verdict;

/// The longest input, and so the longest text that is printed.
pub const MOST_INPUT: usize = 65_535;

/// The lines of the longest bill that is printed.
pub const MOST_LINES: usize = 16_384;

#[derive(Clone, Debug)]
pub enum Ask {
    Price,
    Bill(u64),
    Uses(u64),
    Change(Change),
    /// Head, own figure and needed parts.
    Append(u64, u64, Vec<u64>),
    Check,
    CheckOrder,
}

impl Ask {
    pub fn words(&self) -> Vec<String> {
        let (name, numbers) = match self {
            Ask::Price => ("price", vec![]),
            Ask::Bill(part) => ("bill", vec![*part]),
            Ask::Uses(part) => ("uses", vec![*part]),
            Ask::Change(Change::Reprice(line, figure)) => ("reprice", vec![*line, *figure]),
            Ask::Change(Change::Strike(line)) => ("strike", vec![*line]),
            Ask::Change(Change::Restore(line)) => ("restore", vec![*line]),
            Ask::Append(head, figure, needed) => {
                ("append", [&[*head, *figure], &needed[..]].concat())
            }
            Ask::Check => ("check", vec![]),
            Ask::CheckOrder => ("check-order", vec![]),
        };
        let numbers = numbers.iter().map(u64::to_string);
        [name.to_string()].into_iter().chain(numbers).collect()
    }
}

fn refused(result: u64) -> String {
    format!("refused {} {}\n", result >> 32, result & 0xFFFF_FFFF)
}

pub fn state(label: Label) -> &'static str {
    match (label.depth, label.weight) {
        (0, _) => "unmade",
        (_, OVER) => "over",
        _ => "made",
    }
}

fn list(answers: &Labelling) -> String {
    let mut list = "part state figure depth line pieces\n".to_string();
    for part in 0..answers.weights.len() as u64 {
        let label = answers.label(part);
        let Label { weight, depth, edge, pieces } = label;
        list += &format!("{part} {} {weight} {depth} {edge} {pieces}\n", state(label));
    }
    list
}

fn bill(measure: u64, table: &Table, part: u64) -> String {
    let answers = solve(measure, table);
    let (result, left) = bill_outcome(measure, table, &answers, part, &[0; MOST_LINES]);
    if result >> 32 != 0 {
        return refused(result);
    }
    let row = |&line: &u64| {
        let (head, own) = (table.heads[line as usize], table.own[line as usize]);
        format!("{line} {head} {own}\n")
    };
    let rows: String = left[..result as usize].iter().map(row).collect();
    let label = answers.label(part);
    rows + &format!("{part} {} {}\n", state(label), label.weight)
}

/// The rows are the text's own.
fn uses(text: &[u8], table: &Table, part: u64) -> String {
    if part >= table.n {
        return refused(refusal(11, 0));
    }
    let text = String::from_utf8_lossy(text);
    let rows = text.lines().skip(1).enumerate();
    let needing = rows.filter(|(line, _)| table.tail(*line).contains(&part));
    needing.map(|(line, row)| format!("{line} {row}\n")).collect()
}

/// The table with the line appended, or the refusal; there is room for every line.
fn longer(measure: u64, table: &Table, line: (u64, u64, &[u64])) -> Result<Table, u64> {
    let (head, figure, needed) = line;
    let mut growth = Growth::exact(measure, table, head, figure, needed);
    growth.spare([1, 1, 1, 2, needed.len(), 0, needed.len()], |_| 0);
    match growth.result() {
        0 => Ok(Growth::exact(measure, table, head, figure, needed).longer()),
        result => Err(result),
    }
}

/// The table that a command leaves, or the refusal; None if it changes none.
fn left(measure: u64, table: &Table, ask: &Ask) -> Option<Result<Table, u64>> {
    match ask {
        Ask::Change(change) => {
            let result = change_result(measure, table, &solve(measure, table), *change);
            Some(if result == 0 { Ok(changed(table, *change)) } else { Err(result) })
        }
        Ask::Append(head, figure, needed) => Some(longer(measure, table, (*head, *figure, needed))),
        _ => None,
    }
}

/// The changed table, if its text is printed.
fn after(measure: u64, table: &Table, ask: &Ask) -> Option<Result<Table, u64>> {
    left(measure, table, ask).map(|left| {
        let left = left?;
        let result = write_result(measure, &left, MOST_INPUT);
        if result >> 32 == 0 {
            Ok(left)
        } else {
            Err(result)
        }
    })
}

fn of_table(text: &[u8], measure: u64, table: &Table, ask: &Ask) -> Vec<u8> {
    let reply = match ask {
        Ask::Price => list(&solve(measure, table)),
        Ask::Bill(part) => bill(measure, table, *part),
        Ask::Uses(part) => uses(text, table, *part),
        Ask::CheckOrder => match order_result(table) {
            0 => String::new(),
            result => refused(result),
        },
        _ => match after(measure, table, ask) {
            None => String::new(),
            Some(Ok(left)) => return written(measure, &left),
            Some(Err(result)) => refused(result),
        },
    };
    reply.into_bytes()
}

/// 17 comes first, then 14 with line and column, then the command's own.
pub fn reply(text: &[u8], ask: &Ask) -> Vec<u8> {
    if text.len() > MOST_INPUT {
        return refused(refusal(17, 0)).into_bytes();
    }
    match (parse(text), place(text)) {
        (Ok((measure, table)), _) => of_table(text, measure, &table, ask),
        (_, Some((line, column))) => format!("refused 14 {line} {column}\n").into_bytes(),
        (Err(_), None) => vec![],
    }
}

/// The program prints this.
pub fn prints(text: &[u8], ask: &Ask, wanted: &[u8]) -> Verdict {
    let words = ask.words();
    let verdict = printed(&words, text).and_then(|got| {
        if got == wanted {
            return Ok(());
        }
        Err(format!("printed {}, wanted {}", describe(&got), describe(wanted)))
    });
    verdict.map_err(|wrong| format!("{wrong}; {words:?} of {}", describe(text)))
}

/// The program prints what the model says; that is returned.
pub fn replies(text: &[u8], ask: &Ask) -> Result<Vec<u8>, String> {
    let wanted = reply(text, ask);
    prints(text, ask, &wanted).map(|()| wanted)
}

/// The same of a command that changes the table, and what is printed is priced as the solver prices
/// the changed table.
pub fn changes(measure: u64, table: &Table, ask: &Ask) -> Verdict {
    let text = replies(&written(measure, table), ask)?;
    match after(measure, table, ask) {
        Some(Ok(left)) => prints(&text, &Ask::Price, list(&solve(measure, &left)).as_bytes()),
        _ => Ok(()),
    }
}
