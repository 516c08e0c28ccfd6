//! Accepted tables at the limits themselves, and steps across them.

use crate::model::*;
use crate::random::Rng;
use crate::tables::{chain, low_own, small_own};

pub fn limits(rng: &mut Rng) -> Vec<(&'static str, Table)> {
    vec![
        ("no vertices", nothing(rng, 0)),
        ("no hyperedges", nothing(rng, MOST_VERTICES)),
        ("one vertex, 4,096 sources", sources()),
        ("1,024 sources", a_source_each()),
        ("one span at the column's end", last_span(rng)),
        ("empty spans at the column's end", empty_spans(rng)),
        ("all columns full", full(rng, 0)),
        ("all columns full, a chain in it", full(rng, MOST_VERTICES)),
        ("1,024 tails of 16", long_tails(rng)),
        ("a chain of 1,024", chain(rng, MOST_VERTICES, 0, low_own)),
        ("a chain of 1,024 in 4,096 hyperedges", chain(rng, MOST_VERTICES, 3_072, small_own)),
        ("a chain of zeros, last first", backwards()),
    ]
}

fn nothing(rng: &mut Rng, n: u64) -> Table {
    let mut table = Table::new(n);
    table.tails = rng.noise(MOST_TAILS);
    table
}

fn sources() -> Table {
    let mut table = Table::new(1);
    for edge in 0..MOST_EDGES as u64 {
        table.push(0, GREATEST - edge / 2, &[]);
    }
    table
}

fn a_source_each() -> Table {
    let mut table = Table::new(MOST_VERTICES);
    for vertex in (0..MOST_VERTICES).rev() {
        table.push(vertex, vertex, &[]);
    }
    table
}

fn last_span(rng: &mut Rng) -> Table {
    let mut table = Table::new(MOST_VERTICES);
    table.push(0, 7, &[]);
    let gap = rng.noise(MOST_TAILS - LONGEST_TAIL);
    table.push_after(&gap, MOST_VERTICES - 1, GREATEST, STANDS, &[0; LONGEST_TAIL]);
    table
}

fn empty_spans(rng: &mut Rng) -> Table {
    let mut table = Table::new(3);
    let gap = rng.noise(MOST_TAILS);
    table.push_after(&gap, 0, 7, STANDS, &[]);
    table.push(1, 6, &[]);
    table.push(2, 0, &[]);
    table
}

/// 4,096 hyperedges over 1,024 vertices with 16,384 tail places; the first ones chain up `deep`
/// vertices.
fn full(rng: &mut Rng, deep: u64) -> Table {
    let mut table = Table::new(MOST_VERTICES);
    for vertex in 0..deep {
        let before: Vec<u64> = (vertex > 0).then(|| vertex - 1).into_iter().collect();
        table.push(vertex, 1, &before);
    }
    while table.edges() < MOST_EDGES {
        let left = MOST_TAILS - table.tails.len();
        let behind = MOST_EDGES - table.edges() - 1;
        let least = left.saturating_sub(LONGEST_TAIL * behind);
        let wished = if rng.chance(30) { 0 } else { rng.index(LONGEST_TAIL + 1) };
        let length = wished.max(least).min(left);
        let tail: Vec<u64> = (0..length).map(|_| rng.below(MOST_VERTICES)).collect();
        let mark = if rng.chance(5) { STRUCK } else { STANDS };
        table.push_marked(rng.below(MOST_VERTICES), rng.below(5_000), mark, &tail);
    }
    table
}

fn long_tails(rng: &mut Rng) -> Table {
    let mut table = Table::new(MOST_VERTICES);
    for vertex in 0..MOST_VERTICES {
        // Mostly lower vertices, so that many have a derivation; over soon, as sums grow fast.
        let bound = if rng.chance(95) { vertex.max(1) } else { MOST_VERTICES };
        let tail: Vec<u64> = (0..LONGEST_TAIL).map(|_| rng.below(bound)).collect();
        table.push(vertex, small_own(rng), &tail);
    }
    table.push(0, GREATEST, &[]);
    table
}

fn backwards() -> Table {
    let mut table = Table::new(MOST_VERTICES);
    for vertex in (1..MOST_VERTICES).rev() {
        table.push(vertex, 0, &[vertex - 1, vertex - 1]);
    }
    table.push(0, 0, &[]);
    table
}

/// A hyperedge over 3 vertices and a column of 20 places; it stands.
fn single(head: u64, own: u64, span: [u64; 2]) -> Table {
    let [heads, own, strikes] = [head, own, STANDS].map(|place| vec![place]);
    Table { n: 3, heads, own, strikes, spans: span.to_vec(), tails: vec![2; 20] }
}

fn marked(own: u64, mark: u64) -> Table {
    Table { strikes: vec![mark], ..single(0, own, [0, 0]) }
}

/// The last accepted table and the first refused one, with the refusal's number; its place is 0.
pub fn steps() -> Vec<(Table, Table, u64)> {
    let many = |edges: usize| Table {
        heads: vec![0; edges],
        own: vec![1; edges],
        strikes: vec![STANDS; edges],
        spans: vec![0; 2 * edges],
        ..Table::new(3)
    };
    let long = |words: usize| Table { tails: vec![u64::MAX; words], ..Table::new(3) };
    let listing = |tails: &[u64]| Table { tails: tails.to_vec(), ..single(0, 0, [0, 1]) };
    let source = single(0, 0, [0, 0]);
    vec![
        (Table::new(1_024), Table::new(1_025), 1),
        (many(4_096), many(4_097), 2),
        (long(16_384), long(16_385), 2),
        (single(2, 0, [0, 0]), single(3, 0, [0, 0]), 3),
        (Table::new(0), Table { n: 0, ..source }, 3),
        (single(0, GREATEST, [0, 0]), single(0, GREATEST + 1, [0, 0]), 4),
        (marked(GREATEST, STRUCK), marked(GREATEST + 1, STRUCK), 4),
        (marked(0, STRUCK), marked(0, STRUCK + 1), 21),
        (single(0, GREATEST, [4, 16]), single(0, GREATEST, [5, 16]), 5),
        (single(0, 0, [0, 16]), single(0, 0, [0, 17]), 5),
        (single(0, 0, [20, 0]), single(0, 0, [21, 0]), 5),
        (listing(&[2]), listing(&[]), 5),
        (listing(&[2]), listing(&[3]), 6),
    ]
}
