//! Seeded generators of accepted tables, by family.

pub mod damage;
pub mod examples;
pub mod flaws;
pub mod limits;

use crate::model::*;
use crate::random::Rng;

/// What a random table is made of. Chances are in percent.
#[derive(Clone, Copy)]
pub struct Shape {
    pub vertices: (u64, u64),
    pub edges: (u64, u64),
    pub longest: u64,
    pub own: fn(&mut Rng) -> u64,
    /// Hyperedges without a tail.
    pub sources: u64,
    pub struck: u64,
    /// Tail places that repeat the place before.
    pub repeats: u64,
    /// Hyperedges with a gap before their span.
    pub gaps: u64,
}

/// Tails over all vertices: circles are common.
pub const MIXED: Shape = Shape {
    vertices: (1, 20),
    edges: (0, 70),
    longest: 5,
    own: any_own,
    sources: 25,
    struck: 8,
    repeats: 15,
    gaps: 10,
};

/// Few weights, often 0: ties in weight and in depth.
pub const TIES: Shape =
    Shape { vertices: (2, 9), edges: (4, 50), longest: 3, own: low_own, ..MIXED };

pub const STRIKES: Shape = Shape { struck: 60, sources: 50, ..MIXED };

pub const GAPS: Shape = Shape { gaps: 80, ..MIXED };

pub const REPEATS: Shape = Shape { longest: 16, repeats: 85, own: small_own, ..MIXED };

/// For what is tried many times on each table.
pub const TINY: Shape = Shape {
    vertices: (1, 4),
    edges: (0, 9),
    longest: 2,
    own: low_own,
    sources: 35,
    struck: 10,
    repeats: 20,
    gaps: 15,
};

pub const SHAPES: [Shape; 6] = [MIXED, TIES, STRIKES, GAPS, REPEATS, TINY];

/// A small table of any family.
pub fn any(rng: &mut Rng) -> Table {
    match rng.below(10) {
        0 | 1 => over(rng),
        2 => tower(rng),
        3 => ceiling(rng),
        4 => {
            let length = rng.between(1, 30);
            chain(rng, length, length / 3, any_own)
        }
        _ => {
            let shape = rng.pick(&SHAPES);
            random(rng, &shape)
        }
    }
}

pub fn any_own(rng: &mut Rng) -> u64 {
    match rng.below(4) {
        0 => low_own(rng),
        1 => small_own(rng),
        2 => high_own(rng),
        _ => rng.below(GREATEST + 1),
    }
}

pub fn low_own(rng: &mut Rng) -> u64 {
    rng.pick(&[0, 0, 0, 1, 1, 2])
}

pub fn small_own(rng: &mut Rng) -> u64 {
    rng.below(40)
}

pub fn high_own(rng: &mut Rng) -> u64 {
    rng.pick(&[GREATEST, GREATEST, GREATEST - 1, GREATEST / 2, 1, 0])
}

pub fn random(rng: &mut Rng, shape: &Shape) -> Table {
    let n = rng.between(shape.vertices.0, shape.vertices.1);
    let mut table = Table::new(n);
    for _ in 0..rng.between(shape.edges.0, shape.edges.1) {
        let mark = if rng.chance(shape.struck) { STRUCK } else { STANDS };
        let own = (shape.own)(rng);
        let gap = gap(rng, shape.gaps);
        let tail = tail(rng, shape, n);
        let head = rng.below(n);
        table.push_after(&gap, head, own, mark, &tail);
    }
    // Behind the last span is a gap too.
    table.tails.extend(gap(rng, shape.gaps));
    table
}

/// What stands in a gap is never looked at, so it may be anything.
pub fn gap(rng: &mut Rng, chance: u64) -> Vec<u64> {
    if !rng.chance(chance) {
        return vec![];
    }
    let length = 1 + rng.index(6);
    rng.noise(length)
}

fn tail(rng: &mut Rng, shape: &Shape, n: u64) -> Vec<u64> {
    if shape.longest == 0 || rng.chance(shape.sources) {
        return vec![];
    }
    let mut tail = vec![rng.below(n)];
    for place in 1..rng.between(1, shape.longest) as usize {
        let vertex = if rng.chance(shape.repeats) { tail[place - 1] } else { rng.below(n) };
        tail.push(vertex);
    }
    tail
}

/// A chain through all vertices, in any numbering and order of hyperedges, with `extra` hyperedges
/// that shorten it or close circles.
pub fn chain(rng: &mut Rng, length: u64, extra: u64, own: fn(&mut Rng) -> u64) -> Table {
    let mut order: Vec<u64> = (0..length).collect();
    if rng.chance(70) {
        rng.shuffle(&mut order);
    }
    let mut edges = vec![(order[0], own(rng), vec![])];
    for place in 1..order.len() {
        edges.push((order[place], own(rng), vec![order[place - 1]]));
    }
    for _ in 0..extra {
        let tail = if rng.chance(20) { vec![] } else { vec![rng.below(length)] };
        let dear = own(rng) + rng.below(2 * length);
        edges.push((rng.below(length), dear.min(GREATEST), tail));
    }
    match rng.below(3) {
        0 => edges.reverse(),
        1 => rng.shuffle(&mut edges),
        _ => {}
    }
    Table::of(length, &edges)
}

/// Layers that each need many of the two before: sums on both sides of the ceiling, several ways to
/// a vertex, and ties above the ceiling that depth and hyperedge decide.
pub fn over(rng: &mut Rng) -> Table {
    let n = rng.between(4, 9);
    let mut edges = vec![(0, rng.pick(&[GREATEST, GREATEST - 1, GREATEST / 2]), vec![])];
    for vertex in 1..n {
        for _ in 0..rng.between(1, 4) {
            let mut tail = Vec::new();
            for _ in 0..rng.between(6, 16) {
                let below = rng.between(vertex.saturating_sub(2), vertex - 1);
                tail.push(if rng.chance(2) { rng.below(n) } else { below });
            }
            edges.push((vertex, high_own(rng), tail));
        }
        if rng.chance(5) {
            edges.push((vertex, GREATEST, vec![]));
        }
    }
    rng.shuffle(&mut edges);
    let mut table = Table::new(n);
    for (head, own, tail) in edges {
        table.push_after(&gap(rng, 10), head, own, STANDS, &tail);
    }
    table
}

/// Each vertex needs sixteen of the one before: after 16 levels a sum that wraps is low again and
/// beats an honest one.
pub fn tower(rng: &mut Rng) -> Table {
    let levels = rng.between(8, 40);
    let mut table = Table::new(levels + 1);
    table.push(0, rng.pick(&[1, 3, GREATEST]), &[]);
    for level in 1..levels {
        table.push(level, rng.below(3), &[level - 1; LONGEST_TAIL]);
        if rng.chance(10) {
            table.push(level, GREATEST, &[]);
        }
    }
    // The last vertex compares the top of the tower with a few lower levels.
    for _ in 0..rng.between(1, 4) {
        let length = 1 + rng.index(LONGEST_TAIL);
        let tail: Vec<u64> = (0..length).map(|_| rng.below(levels)).collect();
        table.push(levels, rng.below(3), &tail);
    }
    table.push(levels, rng.below(3), &[levels - 1; LONGEST_TAIL]);
    table
}

/// A chain that passes the ceiling near its end, with more ways to its last vertices: along a path
/// too, sums on both sides of the ceiling, and ties above it.
pub fn high(rng: &mut Rng) -> Table {
    let length = rng.between(1_000, 1_010);
    let mut edges = vec![(0, GREATEST - rng.below(3), vec![])];
    edges.extend((1..length).map(|vertex| (vertex, GREATEST, vec![vertex - 1])));
    for _ in 0..rng.between(2, 9) {
        let near = |rng: &mut Rng| rng.between(length - 14, length - 1);
        let tail: Vec<u64> = (0..rng.between(1, 3)).map(|_| near(rng)).collect();
        edges.push((near(rng), rng.pick(&[GREATEST, GREATEST - 1, 1, 0]), tail));
    }
    if rng.chance(50) {
        rng.shuffle(&mut edges);
    }
    Table::of(length, &edges)
}

/// Sums that meet the ceiling exactly, fall short of it by one or pass it by little.
pub fn ceiling(rng: &mut Rng) -> Table {
    let short = rng.below(100_000);
    let rest = (1_000 * short + rng.pick(&[0, 1, 2, 3, 1_000])).saturating_sub(1);
    let mut edges = vec![
        (0, GREATEST - short, vec![]),
        (1, 0, vec![0; 10]),
        (2, 0, vec![1; 10]),
        (3, rest, vec![2; 10]),
        (4, rest, vec![]),
        (5, 0, [vec![4], vec![2; 10]].concat()),
        // Vertices 3 and 5 have the same sum: ties with one another at the ceiling, and above it.
        (3, rng.below(2), vec![5]),
        (5, rng.below(2), vec![3]),
    ];
    rng.shuffle(&mut edges);
    Table::of(6, &edges)
}
