//! Derivations enumerated outright on small tables: best weight, thrifty, least depth and lowest
//! root by the words of the specification, compared with the solver and the library.

use crate::model::solver::solve;
use crate::model::*;
use crate::random::Rng;
use crate::settle::{same, settles_to};
use crate::tables::{self, Shape};
use crate::trial::{Outcome, Test, Trial, Verdict};
use std::rc::Rc;

pub const TESTS: &[Test] = &[
    Test { name: "trees/random", run: random },
    Test { name: "trees/ceiling", run: ceiling },
    Test { name: "trees/high", run: high },
    Test { name: "trees/all-of-two-vertices", run: all_small },
];

struct Derivation {
    root: usize,
    weight: u64,
    depth: u64,
    children: Vec<Rc<Derivation>>,
}

/// More derivations than this are not listed; such a table is left out.
const MOST_DERIVATIONS: u64 = 3_000;

/// A least derivation, and a thrifty one of least depth, need no vertex twice on a path: n levels
/// hold one of each. One level more is listed to see that it brings nothing.
fn levels(table: &Table) -> u64 {
    table.n + 1
}

/// How many derivations there are up to a depth, without listing them.
fn derivations(table: &Table) -> u64 {
    let mut counts = vec![0u64; table.n as usize];
    for _ in 0..levels(table) {
        let mut deeper = vec![0u64; table.n as usize];
        for edge in (0..table.edges()).filter(|&edge| table.is_live(edge)) {
            let tail = table.tail(edge).iter();
            let ways = tail.fold(1u64, |ways, &v| ways.saturating_mul(counts[v as usize]));
            let head = &mut deeper[table.heads[edge] as usize];
            *head = head.saturating_add(ways);
        }
        counts = deeper;
    }
    counts.iter().fold(0, |sum, &count| sum.saturating_add(count))
}

/// All derivations of each vertex up to the bound.
fn enumerate(measure: u64, table: &Table) -> Vec<Vec<Rc<Derivation>>> {
    let mut known: Vec<Vec<Rc<Derivation>>> = vec![vec![]; table.n as usize];
    for _ in 0..levels(table) {
        let mut deeper = vec![vec![]; table.n as usize];
        for edge in (0..table.edges()).filter(|&edge| table.is_live(edge)) {
            for children in choices(table.tail(edge), &known) {
                let derivation = Rc::new(derive(measure, table, edge, children));
                deeper[table.heads[edge] as usize].push(derivation);
            }
        }
        known = deeper;
    }
    known
}

/// Each way to take one derivation for every place of a tail.
fn choices(tail: &[u64], known: &[Vec<Rc<Derivation>>]) -> Vec<Vec<Rc<Derivation>>> {
    let mut chosen = vec![vec![]];
    for &vertex in tail {
        let mut longer = Vec::new();
        for children in &chosen {
            for child in &known[vertex as usize] {
                let mut more: Vec<Rc<Derivation>> = children.clone();
                more.push(child.clone());
                longer.push(more);
            }
        }
        chosen = longer;
    }
    chosen
}

fn derive(measure: u64, table: &Table, root: usize, children: Vec<Rc<Derivation>>) -> Derivation {
    let weights = children.iter().map(|child| child.weight);
    let own = table.own[root];
    let weight = match measure {
        COST => own + weights.sum::<u64>(),
        DAYS => own + weights.max().unwrap_or(0),
        _ => weights.chain([own]).min().unwrap_or(own),
    };
    let weight = if weight > CEILING { OVER } else { weight };
    let deepest = children.iter().map(|child| child.depth).max();
    Derivation { root, weight, depth: 1 + deepest.unwrap_or(0), children }
}

/// Each subtree has the best weight of its own vertex.
fn is_thrifty(table: &Table, best: &[Option<u64>], derivation: &Derivation) -> bool {
    let vertex = table.heads[derivation.root] as usize;
    best[vertex] == Some(derivation.weight)
        && derivation.children.iter().all(|child| is_thrifty(table, best, child))
}

fn labelling(measure: u64, table: &Table) -> Labelling {
    let known = enumerate(measure, table);
    let of_all = |all: &Vec<Rc<Derivation>>| {
        let weights = all.iter().map(|one| one.weight);
        if measure == GRADE {
            weights.max()
        } else {
            weights.min()
        }
    };
    let best: Vec<Option<u64>> = known.iter().map(of_all).collect();
    let mut labels = Vec::new();
    for (vertex, all) in known.iter().enumerate() {
        let thrifty = all.iter().filter(|one| is_thrifty(table, &best, one));
        let first = thrifty.map(|one| (one.depth, one.root)).min();
        labels.push(match (best[vertex], first) {
            (Some(weight), Some((depth, root))) => {
                Label { weight, depth, edge: root as u64, pieces: 0 }
            }
            _ => UNMADE,
        });
    }
    for (vertex, all) in known.iter().enumerate() {
        let mut chosen = all.iter().filter(|one| follows(table, &labels, one));
        let count = chosen.next().map_or(0, |one| leaves(one));
        labels[vertex].pieces = count.min(MOST_PIECES);
    }
    Labelling::of(&labels)
}

/// Each subtree has the chosen root of its own vertex.
fn follows(table: &Table, labels: &[Label], derivation: &Derivation) -> bool {
    let vertex = table.heads[derivation.root] as usize;
    labels[vertex].edge == derivation.root as u64
        && derivation.children.iter().all(|child| follows(table, labels, child))
}

fn leaves(derivation: &Derivation) -> u64 {
    if derivation.children.is_empty() {
        return 1;
    }
    derivation.children.iter().map(|child| leaves(child)).sum()
}

fn agree(measure: u64, table: &Table, rng: &mut Rng) -> Verdict {
    let wanted = labelling(measure, table);
    same("the solver", &solve(measure, table), &wanted)
        .map_err(|wrong| format!("{wrong}; measure {measure}, {}", table.describe()))?;
    settles_to(measure, table, &wanted, rng)
}

/// Up to 4 vertices and 6 hyperedges with at most 2 tail places.
fn random(trial: &Trial) -> Outcome {
    let own: fn(&mut Rng) -> u64 = |rng| rng.pick(&[0, 0, 1, 1, 2, 3, 5, GREATEST]);
    let shape = Shape { edges: (0, 6), own, sources: 40, ..tables::TINY };
    trial.cases(2 * trial.count, |rng| {
        let mut table = tables::random(rng, &shape);
        while derivations(&table) > MOST_DERIVATIONS {
            table = tables::random(rng, &shape);
        }
        MEASURES.into_iter().try_for_each(|measure| agree(measure, &table, rng))
    })
}

/// Larger, but with few derivations: sums that are over, and ties between them.
fn ceiling(trial: &Trial) -> Outcome {
    trial.cases(trial.count / 4, |rng| {
        let table = tables::ceiling(rng);
        MEASURES.into_iter().try_for_each(|measure| agree(measure, &table, rng))
    })
}

/// The same along a path, for days.
fn high(trial: &Trial) -> Outcome {
    trial.cases(trial.count / 100, |rng| {
        let mut table = tables::high(rng);
        while derivations(&table) > MOST_DERIVATIONS {
            table = tables::high(rng);
        }
        agree(DAYS, &table, rng)
    })
}

/// Head, own weight, mark and tail.
pub type Edge = (u64, u64, u64, Vec<u64>);

/// Own weights 0, 1 and struck at 0 with every tail of up to 2 places, for both heads.
pub fn small_edges() -> Vec<Edge> {
    let tails = [vec![], vec![0], vec![1], vec![0, 0], vec![0, 1], vec![1, 0], vec![1, 1]];
    let mut edges = Vec::new();
    for head in [0, 1] {
        for (own, mark) in [(0, STANDS), (1, STANDS), (0, STRUCK)] {
            edges.extend(tails.iter().map(|tail| (head, own, mark, tail.clone())));
        }
    }
    edges
}

/// The table of two vertices with the hyperedges that the digits of `number` name.
pub fn small_table(kinds: &[Edge], edges: u32, mut number: usize) -> Table {
    let mut table = Table::new(2);
    for _ in 0..edges {
        let (head, own, mark, tail) = &kinds[number % kinds.len()];
        table.push_marked(*head, *own, *mark, tail);
        number /= kinds.len();
    }
    table
}

fn all_small(trial: &Trial) -> Outcome {
    let kinds = small_edges();
    let mut rng = trial.rng();
    let mut cases = 0;
    for edges in 0..=3 {
        for number in 0..kinds.len().pow(edges) {
            let table = small_table(&kinds, edges, number);
            MEASURES.into_iter().try_for_each(|measure| agree(measure, &table, &mut rng))?;
            cases += 1;
        }
    }
    Ok(cases)
}
