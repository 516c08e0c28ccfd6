//! Faults put into a sound call, each with the refusal that it alone would bring. What is reported
//! of several is decided by their rank: the order that the specification gives.

use crate::model::solver::{refusal, solve};
use crate::model::*;
use crate::random::Rng;

/// What a call with a measure and answer columns is given.
#[derive(Clone)]
pub struct Call {
    pub measure: u64,
    pub table: Table,
    pub answers: Labelling,
}

impl Call {
    /// An accepted table with its answers.
    pub fn solved(measure: u64, table: Table) -> Call {
        let answers = solve(measure, &table);
        Call { measure, table, answers }
    }
}

#[derive(Clone, Copy, Debug)]
pub enum Fault {
    Measure(u64),
    Vertices(u64),
    /// One of the ways of `COLUMN_WAYS`.
    Columns(usize),
    Head(usize, u64),
    Own(usize, u64),
    Mark(usize, u64),
    /// A hyperedge, and one of the ways of `SPAN_WAYS`.
    Span(usize, usize),
    /// A hyperedge, a place in its tail, and the vertex to stand there.
    Tail(usize, usize, u64),
    /// A column, and one of the ways of `ANSWER_WAYS`.
    Answers(usize, usize),
}

const COLUMN_WAYS: usize = 21;
const SPAN_WAYS: usize = 15;
const ANSWER_WAYS: usize = 4;

/// Vertices of the sound call, and its hyperedges that have a tail.
const N: u64 = 5;
const WITH_TAIL: [usize; 4] = [0, 1, 2, 3];
const LAST: usize = 5;

/// Four hyperedges with tails and gaps, then two without; behind them are vertices enough for a
/// span that is too long but does not pass the end.
pub fn sound(rng: &mut Rng) -> Call {
    let mut table = Table::new(N);
    for _ in WITH_TAIL {
        let length = 2 + rng.index(3);
        let tail: Vec<u64> = (0..length).map(|_| rng.below(N)).collect();
        let gap = rng.noise(2);
        table.push_after(&gap, rng.below(N), rng.below(50), STANDS, &tail);
    }
    // Empty, but the next span must not start before it.
    table.push_after(&[1, 2], 0, 7, STANDS, &[]);
    table.push(1, GREATEST, &[]);
    table.tails.extend((0..20).map(|_| rng.below(N)));
    Call::solved(rng.pick(&MEASURES), table)
}

/// Every fault that is tried.
pub fn faults() -> Vec<Fault> {
    let outside = [N, N + 1, 1 << 32, (1 << 32) + 1, 1 << 63, u64::MAX];
    let above = [GREATEST + 1, GREATEST + 2, 1 << 32, (1 << 32) + 1, 1 << 63, u64::MAX];
    let mut all = Vec::new();
    all.extend([3, 4, 1 << 32, (1 << 32) + 1, 1 << 63, u64::MAX].map(Fault::Measure));
    all.extend([1_025, 1_026, 1 << 32, (1 << 32) + N, 1 << 63, u64::MAX].map(Fault::Vertices));
    all.extend((0..COLUMN_WAYS).map(Fault::Columns));
    for edge in WITH_TAIL {
        for value in outside {
            all.push(Fault::Head(edge, value));
            all.push(Fault::Tail(edge, value as usize % 2, value));
        }
        all.extend(above.map(|value| Fault::Own(edge, value)));
        // The last three ways start too early, which the first span can't.
        let ways = if edge == 0 { SPAN_WAYS - 3 } else { SPAN_WAYS };
        all.extend((0..ways).map(|way| Fault::Span(edge, way)));
    }
    all.extend((0..=LAST).flat_map(|edge| [2, u64::MAX].map(|mark| Fault::Mark(edge, mark))));
    all.extend([GREATEST + 1, 1 << 32, (1 << 32) + 1, 1 << 63].map(|mark| Fault::Mark(1, mark)));
    all.extend([Fault::Head(LAST, N), Fault::Own(LAST, u64::MAX)]);
    all.extend((0..SPAN_WAYS).map(|way| Fault::Span(LAST, way)));
    for column in 0..5 {
        all.extend((0..ANSWER_WAYS).map(|way| Fault::Answers(column, way)));
    }
    all
}

/// Where in the order a fault is found, and what is then returned.
#[derive(Clone, Copy, PartialEq, Eq, PartialOrd, Ord)]
pub struct Rank {
    stage: u64,
    place: u64,
    step: u64,
    number: u64,
}

impl Rank {
    /// A stage that is not of a hyperedge.
    pub fn at(stage: u64, number: u64) -> Rank {
        Rank { stage, place: 0, step: 0, number }
    }

    /// What is returned of several.
    pub fn reported(ranks: impl Iterator<Item = Rank>) -> u64 {
        ranks.min().map_or(0, |first| refusal(first.number, first.place))
    }
}

impl Fault {
    /// The lowest is reported: 16, 1, 2, then hyperedge by hyperedge 3, 4, 21, 5 and 6, then 7.
    pub fn rank(&self) -> Rank {
        let of_edge =
            |edge: usize, step, number| Rank { stage: 3, place: edge as u64, step, number };
        match *self {
            Fault::Measure(_) => Rank::at(0, 16),
            Fault::Vertices(_) => Rank::at(1, 1),
            Fault::Columns(_) => Rank::at(2, 2),
            Fault::Head(edge, _) => of_edge(edge, 0, 3),
            Fault::Own(edge, _) => of_edge(edge, 1, 4),
            Fault::Mark(edge, _) => of_edge(edge, 2, 21),
            Fault::Span(edge, _) => of_edge(edge, 3, 5),
            Fault::Tail(edge, _, _) => of_edge(edge, 4, 6),
            Fault::Answers(_, _) => Rank::at(4, 7),
        }
    }

    pub fn is_of_table(&self) -> bool {
        !matches!(self, Fault::Measure(_) | Fault::Answers(_, _))
    }

    fn apply(&self, call: &mut Call) {
        match *self {
            Fault::Measure(measure) => call.measure = measure,
            Fault::Vertices(n) => call.table.n = n,
            Fault::Columns(way) => damage_columns(&mut call.table, way),
            Fault::Head(edge, value) => call.table.heads[edge] = value,
            Fault::Own(edge, value) => call.table.own[edge] = value,
            Fault::Mark(edge, value) => call.table.strikes[edge] = value,
            Fault::Span(edge, way) => damage_span(&mut call.table, edge, way),
            Fault::Tail(edge, place, value) => {
                let offset = call.table.spans[2 * edge] as usize;
                call.table.tails[offset + place] = value;
            }
            Fault::Answers(4, way) => {
                let columns = call.answers.columns_mut();
                columns.into_iter().for_each(|column| damage_answers(column, way));
            }
            Fault::Answers(column, way) => {
                damage_answers(call.answers.columns_mut()[column], way);
            }
        }
    }
}

/// The call with all the faults. Those reported last go in first, while the columns are whole.
pub fn damaged(call: &Call, faults: &[Fault]) -> Call {
    let mut faults = faults.to_vec();
    faults.sort_by_key(|fault| std::cmp::Reverse(fault.rank()));
    let mut call = call.clone();
    faults.iter().for_each(|fault| fault.apply(&mut call));
    call
}

/// What a call returns that looks for the given faults; 0 if there are none.
pub fn reported<'a>(faults: impl Iterator<Item = &'a Fault>) -> u64 {
    Rank::reported(faults.map(Fault::rank))
}

fn damage_columns(table: &mut Table, way: usize) {
    let edges = table.edges();
    match way {
        0 => table.own.push(1),
        1 => table.own.truncate(edges - 1),
        2 => table.own.clear(),
        3 => table.spans.push(0),
        4 => table.spans.truncate(2 * edges - 1),
        5 => table.spans.extend([table.tails.len() as u64, 0]),
        6 => table.spans.truncate(2 * edges - 2),
        7 => table.spans.clear(),
        8 => table.heads.push(0),
        9 => table.heads.truncate(edges - 1),
        10 => table.heads.clear(),
        11 => table.spans.truncate(edges),
        12 => table.own.extend(vec![0; edges]),
        13 => fill_edges(table, MOST_EDGES + 1),
        14 => fill_edges(table, 2 * MOST_EDGES),
        15 => table.tails.resize(MOST_TAILS + 1, 0),
        16 => table.strikes.push(STANDS),
        17 => table.strikes.truncate(edges - 1),
        18 => table.strikes.clear(),
        19 => table.strikes.extend(vec![STRUCK; edges]),
        _ => table.tails.resize(3 * MOST_TAILS, 0),
    }
}

fn fill_edges(table: &mut Table, edges: usize) {
    while table.edges() < edges {
        table.push(0, 0, &[]);
    }
}

/// Too long, past the end or too early; many with a sum that is low once it wraps or is narrowed.
fn damage_span(table: &mut Table, edge: usize, way: usize) {
    let (offset, length) = (table.spans[2 * edge], table.spans[2 * edge + 1]);
    let end = table.tails.len() as u64;
    let before = match edge {
        0 => 0,
        _ => table.spans[2 * edge - 2].wrapping_add(table.spans[2 * edge - 1]),
    };
    let (offset, length) = match way {
        0 => (offset, 17),
        1 => (offset, u64::MAX),
        2 => (offset, offset.wrapping_neg() | 1 << 40),
        3 => (offset, length | 1 << 32),
        4 => (end, 1),
        5 => (end - 1, 2),
        6 => (end + 1, 0),
        7 => (u64::MAX, 0),
        8 => (u64::MAX, 1),
        9 => (u64::MAX - 15, 16),
        10 => (offset | 1 << 32, length),
        11 => (1 << 63, 1 << 63),
        12 => (before.wrapping_sub(1), length),
        13 => (before.wrapping_sub(1), 0),
        _ => (0, length.max(1)),
    };
    table.spans[2 * edge] = offset;
    table.spans[2 * edge + 1] = length;
}

fn damage_answers(column: &mut Vec<u64>, way: usize) {
    let n = N as usize;
    column.resize([n + 1, n - 1, 0, 2 * n][way], 0);
}
