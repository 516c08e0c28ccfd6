//! Appending a line: table, index and answers are then those of the longer table, worked out anew.

pub mod lent;
pub mod refusals;

use crate::append::lent::*;
use crate::calls::{bill, check_answers, growth::append, growth::index_table, settle};
use crate::model::growth::{Growth, Index};
use crate::model::solver::{bill_outcome, changed, refusal, solve};
use crate::model::*;
use crate::random::Rng;
use crate::reprice::changes::{any_change, as_solver_says};
use crate::tables;
use crate::tables::damage::Call;
use crate::tables::examples::worked;
use crate::trial::{expect, Outcome, Test, Trial, Verdict};

pub const TESTS: &[Test] = &[
    Test { name: "appending/worked", run: stated },
    Test { name: "appending/random", run: random },
    Test { name: "appending/from-nothing", run: from_nothing },
    Test { name: "appending/in-turn", run: in_turn },
    Test { name: "appending/limits", run: at_the_limits },
    Test { name: "appending/then-the-others", run: then_the_others },
    Test { name: "appending/all-changes", run: all_changes },
    Test { name: "appending/kept-figure", run: kept_figure },
];

fn stated(_: &Trial) -> Outcome {
    let mut growth = Growth::exact(COST, &worked(), 4, 7, &[1, 1]);
    growth.spare([1, 1, 1, 3, 3, 1, 2], |place| 90 + place);
    let (result, left) = append(&growth)?;
    expect("the worked table", result, 0)?;
    let counts = (left.lines, left.listed);
    if counts != (7, 8) || left.table.spans[12..14] != [6, 2] || left.table.strikes[6] != STANDS {
        return Err(format!("counts {counts:?}, spans {:?}", left.table.spans));
    }
    if left.index.list[..6] != [2, 2, 4, 6, 4, 5] {
        return Err(format!("list {:?}", left.index.list));
    }
    if left.answers.label(4) != (Label { weight: 607, depth: 2, edge: 6, pieces: 2 }) {
        return Err(format!("part 4 is {:?}", left.answers.label(4)));
    }
    same_growth(&left, &growth.after())?;
    let (result, left) = append(&Growth { mark: STRUCK, ..growth.clone() })?;
    expect("the worked table and a struck line", result, 0)?;
    if left.table.own[6] != 7 || left.table.strikes[6] != STRUCK || left.answers != growth.answers {
        return Err(format!("a struck line left {}", left.describe()));
    }
    Ok(2)
}

fn random(trial: &Trial) -> Outcome {
    trial.cases(4 * trial.count, |rng| {
        let measure = rng.pick(&MEASURES);
        let table = tables::any(rng);
        let growth = any_growth(rng, measure, &table);
        as_model_says(&growth).map(|_| ())
    })
}

/// An empty table, grown line by line to forty lines.
fn from_nothing(trial: &Trial) -> Outcome {
    trial.cases(trial.count / 40, |rng| {
        let measure = rng.pick(&MEASURES);
        let n = rng.between(1, 12);
        let mut growth = Growth::exact(measure, &Table::new(n), 0, 0, &[]);
        // Forty lines of 16 parts each at most.
        growth.spare([40, 40, 40, 80, 640, 3, 640], |place| place);
        for line in 1..=40 {
            growth = accepted(&growth.with(any_line(rng, n)))?;
            expect("the lines", growth.lines, line)?;
        }
        Ok(())
    })
}

/// Several lines in turn behind a random table, from its own gaps on.
fn in_turn(trial: &Trial) -> Outcome {
    trial.cases(trial.count / 4, |rng| {
        let measure = rng.pick(&MEASURES);
        let table = tables::any(rng);
        let mut growth = any_growth(rng, measure, &table);
        for _ in 0..rng.between(1, 6) {
            let line = any_line(rng, growth.table.n);
            growth = growth.with(line);
            let (result, left) = as_model_says(&growth)?;
            if result != 0 {
                return Ok(());
            }
            growth = left;
        }
        Ok(())
    })
}

/// 4,096 lines and 16,384 needed parts are reached, and not passed.
fn at_the_limits(_: &Trial) -> Outcome {
    let line = |part: usize| (part as u64 % 1_024, 3, vec![]);
    let lines: Vec<_> = (0..MOST_EDGES - 1).map(line).collect();
    let mut most = Growth::exact(COST, &Table::of(1_024, &lines), 5, 2, &[7]);
    most.spare([2, 2, 2, 4, 9, 0, 9], |place| place);
    let most = accepted(&most)?;
    as_model_says(&most)?;
    let full = |part: usize| (part as u64, 1, vec![part as u64; LONGEST_TAIL]);
    let lines: Vec<_> = (0..MOST_TAILS / LONGEST_TAIL - 1).map(full).collect();
    let mut long = Growth::exact(DAYS, &Table::of(1_024, &lines), 5, GREATEST, &[7; 16]);
    long.mark = STRUCK;
    long.spare([9, 9, 9, 18, 40, 0, 40], |place| place);
    let long = accepted(&long)?;
    expect("the needed parts", long.listed, MOST_TAILS as u64)?;
    as_model_says(&long)?;
    accepted(&Growth { needed: vec![], ..long })?;
    Ok(5)
}

/// The grown table, cut at its counts, is a table like any other.
fn then_the_others(trial: &Trial) -> Outcome {
    trial.cases(trial.count / 4, |rng| {
        let measure = rng.pick(&MEASURES);
        let table = tables::any(rng);
        let growth = any_growth(rng, measure, &table);
        let (result, left) = as_model_says(&growth)?;
        if result != 0 {
            return Ok(());
        }
        let grown = left.in_use();
        expect("the answers", check_answers(measure, &grown, &left.answers)?, 1)?;
        let right = solve(measure, &grown);
        let (settled, answers) = settle(measure, &grown, &Labelling::unmade(grown.n))?;
        expect("settling", settled, 0)?;
        if answers != right {
            return Err("settling gives other answers".to_string());
        }
        let (total, index) = index_table(&grown, &left.index)?;
        expect("indexing", total, Index::of(&grown).list.len() as u64)?;
        if index != left.index {
            return Err("indexing gives another index".to_string());
        }
        others(rng, measure, &grown, &right)
    })
}

/// Repricing, striking, restoring and a bill of the new line and its head.
fn others(rng: &mut Rng, measure: u64, grown: &Table, right: &Labelling) -> Verdict {
    let edge = grown.edges() as u64 - 1;
    let call = Call { measure, table: grown.clone(), answers: right.clone() };
    let changes =
        [Change::Reprice(edge, rng.below(50)), Change::Strike(edge), Change::Restore(edge)];
    for change in changes {
        let left = as_solver_says(&call, change)?;
        if left.result == 0 && Index::of(&changed(grown, change)) != Index::of(grown) {
            return Err("a change has moved the index".to_string());
        }
    }
    let part = grown.heads[edge as usize];
    let room = vec![0; 60];
    let (wanted, written) = bill_outcome(measure, grown, right, part, &room);
    let (result, got) = bill(measure, grown, right, part, &room)?;
    expect("the bill", result, wanted)?;
    if got != written {
        return Err("another bill".to_string());
    }
    Ok(())
}

/// A change of the lines in use, in the columns with places to spare; what it must leave, the change's
/// own test says. No change moves the index.
fn change_in_use(growth: &mut Growth, change: Change) -> Result<u64, String> {
    let table = growth.in_use();
    let index = Index::of(&table);
    let call = Call { measure: growth.measure, table, answers: growth.answers.clone() };
    let left = as_solver_says(&call, change)?;
    growth.table.own.splice(..left.own.len(), left.own);
    growth.table.strikes.splice(..left.strikes.len(), left.strikes);
    growth.answers = left.answers;
    if Index::of(&growth.in_use()) != index {
        return Err("a change has moved the index".to_string());
    }
    Ok(left.result)
}

/// Reprices, strikes, restores and appendings in any order, each with the columns that the one before
/// left; some name a line that there is not, or whose mark is the other.
fn all_changes(trial: &Trial) -> Outcome {
    trial.cases(trial.count, |rng| {
        let measure = rng.pick(&MEASURES);
        let table = tables::any(rng);
        let mut growth = any_growth(rng, measure, &table);
        growth.spare([12, 12, 12, 24, 96, 2, 96], |_| rng.any());
        for _ in 0..rng.between(4, 20) {
            if rng.chance(35) {
                let line = any_line(rng, growth.table.n);
                growth = as_model_says(&growth.with(line))?.1;
                continue;
            }
            let (table, answers) = (growth.in_use(), growth.answers.clone());
            let edge = rng.below(growth.lines + 2);
            let any = [Change::Reprice(edge, 7), Change::Strike(edge), Change::Restore(edge)];
            let change = match rng.chance(20) {
                true => rng.pick(&any),
                false => any_change(rng, &Call { measure, table, answers }),
            };
            change_in_use(&mut growth, change)?;
        }
        Ok(())
    })
}

/// A line is struck, or appended struck; others are appended and changed; restored, it has its own
/// figure in the table as it then is.
fn kept_figure(trial: &Trial) -> Outcome {
    trial.cases(trial.count / 4, |rng| {
        let (measure, n) = (rng.pick(&MEASURES), rng.between(1, 6));
        let mut growth = Growth::exact(measure, &Table::new(n), 0, 0, &[]);
        growth.spare([9, 9, 9, 18, 144, 0, 144], |_| rng.any());
        let (head, kept, mark, needed) = any_line(rng, n);
        growth = accepted(&growth.with((head, kept, mark, needed)))?;
        if mark == STANDS {
            expect("a strike", change_in_use(&mut growth, Change::Strike(0))?, 0)?;
        }
        for _ in 0..8 {
            growth = accepted(&growth.with(any_line(rng, n)))?;
            let edge = rng.between(1, growth.lines - 1);
            let any = [Change::Reprice(edge, 3), Change::Strike(edge), Change::Restore(edge)];
            change_in_use(&mut growth, rng.pick(&any))?;
            let repriced = change_in_use(&mut growth, Change::Reprice(0, 3))?;
            expect("a reprice of the struck line", repriced, refusal(9, 0))?;
        }
        expect("a restoring", change_in_use(&mut growth, Change::Restore(0))?, 0)?;
        expect("the kept figure", growth.table.own[0], kept)?;
        if growth.answers != solve(measure, &growth.in_use()) {
            return Err("other answers".to_string());
        }
        Ok(())
    })
}
