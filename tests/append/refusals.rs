//! Appendings that are turned away: each refusal alone, every two of them, and that nothing lent is
//! altered.

use crate::append::lent::*;
use crate::model::growth::{Growth, Index};
use crate::model::solver::{refusal, solve, table_result};
use crate::model::*;
use crate::random::Rng;
use crate::tables;
use crate::trial::{expect, Outcome, Test, Trial, Verdict};

pub const TESTS: &[Test] = &[
    Test { name: "appending-refusals/each", run: each },
    Test { name: "appending-refusals/pairs", run: pairs },
    Test { name: "appending-refusals/many", run: many },
    Test { name: "appending-refusals/counts", run: counts },
    Test { name: "appending-refusals/one-word", run: one_word },
];

/// A fault, the step of the order at which it is found, its number and its place.
struct Flaw {
    name: &'static str,
    step: u64,
    number: u64,
    at: At,
    make: fn(&mut Growth),
}

#[derive(Clone, Copy)]
enum At {
    Nought,
    LineTwo,
    NewLine,
}

const fn flaw(name: &'static str, step: u64, number: u64, at: At, make: fn(&mut Growth)) -> Flaw {
    Flaw { name, step, number, at, make }
}

const FLAWS: &[Flaw] = &[
    flaw("measure", 0, 16, At::Nought, |g| g.measure = 3),
    flaw("parts", 1, 1, At::Nought, |g| g.table.n = 1_025),
    flaw("lines past heads", 2, 2, At::Nought, |g| g.table.heads.truncate(g.lines as usize - 1)),
    flaw("lines past own", 2, 2, At::Nought, |g| g.table.own.truncate(g.lines as usize - 1)),
    flaw("lines past strikes", 2, 2, At::Nought, |g| {
        g.table.strikes.truncate(g.lines as usize - 1)
    }),
    flaw("lines past spans", 2, 2, At::Nought, |g| {
        g.table.spans.truncate(2 * g.lines as usize - 1)
    }),
    flaw("listed past tails", 2, 2, At::Nought, |g| g.listed = g.table.tails.len() as u64 + 1),
    flaw("a huge count", 2, 2, At::Nought, |g| g.lines = u64::MAX),
    flaw("a huge list", 2, 2, At::Nought, |g| g.listed = u64::MAX),
    flaw("an end that wraps", 2, 2, At::Nought, |g| {
        let last = 2 * g.lines as usize;
        g.table.spans[last - 2] = u64::MAX;
        g.table.spans[last - 1] = 2;
    }),
    flaw("head of line 2", 3, 3, At::LineTwo, |g| g.table.heads[2] = g.table.n),
    flaw("own of line 2", 4, 4, At::LineTwo, |g| g.table.own[2] = GREATEST + 1),
    flaw("mark of line 2", 5, 21, At::LineTwo, |g| g.table.strikes[2] = 2),
    flaw("span of line 2", 6, 5, At::LineTwo, |g| g.table.spans[5] = 17),
    flaw("part of line 2", 7, 6, At::LineTwo, |g| {
        let place = g.table.spans[4] as usize;
        g.table.tails[place] = g.table.n;
    }),
    flaw("new head", 8, 3, At::NewLine, |g| g.head = g.table.n),
    flaw("new figure", 9, 4, At::NewLine, |g| g.figure = GREATEST + 1),
    flaw("new mark", 10, 21, At::NewLine, |g| g.mark = 2),
    flaw("a huge new mark", 10, 21, At::NewLine, |g| g.mark = u64::MAX),
    flaw("new list", 11, 5, At::NewLine, |g| g.needed = vec![0; 17]),
    flaw("new part", 12, 6, At::NewLine, |g| g.needed[0] = g.table.n),
    flaw("weights", 13, 7, At::Nought, |g| g.answers.weights.push(0)),
    flaw("depths", 13, 7, At::Nought, |g| {
        g.answers.depths.pop();
    }),
    flaw("edges", 13, 7, At::Nought, |g| g.answers.edges.push(0)),
    flaw("no head to spare", 14, 18, At::Nought, |g| g.table.heads.truncate(g.lines as usize)),
    flaw("no own to spare", 14, 18, At::Nought, |g| g.table.own.truncate(g.lines as usize)),
    flaw("no strike to spare", 14, 18, At::Nought, |g| g.table.strikes.truncate(g.lines as usize)),
    flaw("no span to spare", 14, 18, At::Nought, |g| {
        g.table.spans.truncate(2 * g.lines as usize + 1)
    }),
    flaw("no part to spare", 14, 18, At::Nought, |g| g.table.tails.truncate(g.listed as usize)),
    flaw("no pair to spare", 14, 18, At::Nought, |g| {
        g.index.pairs.truncate(2 * g.table.n as usize - 1)
    }),
    flaw("no entry to spare", 14, 18, At::Nought, |g| {
        g.index.list.truncate(g.index.list.len() - 3)
    }),
    flaw("a pair off", 15, 19, At::Nought, |g| g.index.pairs[3] += 1),
    flaw("an entry off", 15, 19, At::Nought, |g| g.index.list[0] += 1),
    flaw("a figure off", 16, 8, At::Nought, |g| g.answers.weights[0] += 1),
    flaw("a line off", 16, 8, At::Nought, |g| g.answers.edges[1] += 1),
];

/// Three lines or more, the third of which lists a part; two places of tails and list to spare, which
/// the new line needs.
fn sound(rng: &mut Rng) -> Growth {
    let n = 5 + rng.below(4);
    let mut table = Table::of(n, &[(0, 5, vec![]), (1, 2, vec![0]), (2, 1, vec![1, 0])]);
    for _ in 0..rng.below(4) {
        let (head, figure, mark, needed) = any_line(rng, n);
        table.push_marked(head, figure, mark, &needed);
    }
    let measure = rng.pick(&MEASURES);
    let mut growth = Growth::exact(measure, &table, 3, rng.below(90), &[2, 1]);
    growth.mark = rng.pick(&MARKS);
    growth.spare([1, 1, 1, 2, 2, 0, 2], |_| rng.any());
    growth
}

impl Flaw {
    fn wanted(&self, growth: &Growth) -> u64 {
        let place = match self.at {
            At::Nought => 0,
            At::LineTwo => 2,
            At::NewLine => growth.lines,
        };
        refusal(self.number, place)
    }
}

fn flawed(sound: &Growth, flaws: &[&Flaw]) -> Verdict {
    let first = flaws.iter().min_by_key(|flaw| flaw.step).ok_or("no flaw")?;
    let wanted = first.wanted(sound);
    let mut growth = sound.clone();
    // Those of the lent lengths last, so that the others have their places.
    let mut order = flaws.to_vec();
    order.sort_by_key(|flaw| (flaw.number == 18, flaw.number == 2));
    order.iter().for_each(|flaw| (flaw.make)(&mut growth));
    let names: Vec<&str> = flaws.iter().map(|flaw| flaw.name).collect();
    expect("the model", growth.result(), wanted)
        .and_then(|()| returns(&growth, wanted).map(|_| ()))
        .map_err(|wrong| format!("{names:?}: {wrong}"))
}

fn each(trial: &Trial) -> Outcome {
    trial.cases(20, |rng| {
        let growth = sound(rng);
        accepted(&growth)?;
        FLAWS.iter().try_for_each(|flaw| flawed(&growth, &[flaw]))
    })
}

fn pairs(trial: &Trial) -> Outcome {
    let mut rng = trial.rng();
    let growth = sound(&mut rng);
    let mut tried = 0;
    for (place, first) in FLAWS.iter().enumerate() {
        for second in FLAWS[place..].iter().filter(|second| second.step != first.step) {
            flawed(&growth, &[first, second])?;
            tried += 1;
        }
    }
    Ok(tried)
}

fn many(trial: &Trial) -> Outcome {
    trial.cases(trial.count / 2, |rng| {
        let growth = sound(rng);
        let mut chosen: Vec<&Flaw> = Vec::new();
        for _ in 0..rng.between(3, 6) {
            let flaw = &FLAWS[rng.index(FLAWS.len())];
            if chosen.iter().all(|other| other.step != flaw.step) {
                chosen.push(flaw);
            }
        }
        flawed(&growth, &chosen)
    })
}

/// Counts below what stands in the columns: fewer lines and needed parts are in use, and lines that
/// reach behind the count are refused by 5.
fn counts(trial: &Trial) -> Outcome {
    trial.cases(trial.count, |rng| {
        let measure = rng.pick(&MEASURES);
        let table = tables::any(rng);
        let mut growth = any_growth(rng, measure, &table);
        growth.lines = rng.below(growth.lines + 1);
        growth.listed = rng.below(growth.listed + 3);
        if growth.lines > 0 && rng.chance(50) {
            let last = 2 * growth.lines as usize - 2;
            let end = growth.table.spans[last] + growth.table.spans[last + 1];
            growth.listed = end.min(growth.table.tails.len() as u64);
        }
        if growth.listed as usize <= growth.table.tails.len() {
            let held = growth.in_use();
            if table_result(&held) == 0 {
                growth.answers = solve(measure, &held);
                let index = Index::of(&held);
                growth.index.pairs = index.pairs;
                growth.index.list = [index.list, rng.noise(18)].concat();
            }
        }
        as_model_says(&growth).map(|_| ())
    })
}

/// One word of what is lent becomes any number.
fn one_word(trial: &Trial) -> Outcome {
    trial.cases(4 * trial.count, |rng| {
        let mut growth = sound(rng);
        let word = rng.any();
        let column = match rng.below(13) {
            0 => &mut growth.table.heads,
            1 => &mut growth.table.own,
            2 => &mut growth.table.strikes,
            3 => &mut growth.table.spans,
            4 => &mut growth.table.tails,
            5 => &mut growth.answers.weights,
            6 => &mut growth.answers.depths,
            7 => &mut growth.answers.edges,
            8 => &mut growth.index.pairs,
            9 => &mut growth.index.list,
            10 => {
                growth.mark = word;
                return as_model_says(&growth).map(|_| ());
            }
            _ => &mut growth.needed,
        };
        let place = rng.index(column.len());
        column[place] = word;
        as_model_says(&growth).map(|_| ())
    })
}
