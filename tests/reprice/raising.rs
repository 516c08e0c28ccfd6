//! Demand 3: two tables that differ in one own weight, raised by d. The library settles either,
//! reprices each into the other, and the rises keep to their bounds.

use crate::calls::settle;
use crate::model::solver::{changed, counts, solve};
use crate::model::trees::{small_edges, small_table};
use crate::model::*;
use crate::random::Rng;
use crate::reprice::changes::{accepted, leaves, live_edge, priced};
use crate::settle::{large, same};
use crate::tables;
use crate::tables::damage::Call;
use crate::tables::examples::{changes, p1};
use crate::tables::limits::limits;
use crate::trial::{expect, Outcome, Test, Trial};

pub const TESTS: &[Test] = &[
    Test { name: "raising/stated", run: stated },
    Test { name: "raising/random", run: |trial| raised(trial, 4 * trial.count, tables::any) },
    Test { name: "raising/ties", run: |trial| raised(trial, 4 * trial.count, ties) },
    Test { name: "raising/over", run: |trial| raised(trial, 2 * trial.count, tables::over) },
    Test { name: "raising/ceiling", run: |trial| raised(trial, 2 * trial.count, tables::ceiling) },
    Test { name: "raising/high", run: |trial| raised(trial, trial.count / 20, tables::high) },
    Test { name: "raising/high-end", run: high_end },
    Test { name: "raising/once-on-a-path", run: once_on_a_path },
    Test { name: "raising/deep", run: |trial| raised(trial, 2 * trial.count, deep) },
    Test { name: "raising/large", run: |trial| raised(trial, trial.count / 40, large) },
    Test { name: "raising/limits", run: at_the_limits },
    Test { name: "raising/all-of-two-vertices", run: all_small },
    Test { name: "raising/all-kinds", run: |trial| all_kinds(trial, COST, &KINDS) },
    Test { name: "raising/all-kinds-in-days", run: |trial| all_kinds(trial, DAYS, &DAYS_KINDS) },
    Test { name: "raising/all-kinds-in-grade", run: |trial| all_kinds(trial, GRADE, &DAYS_KINDS) },
];

/// Two accepted tables that agree but for the own weight of a live hyperedge, which is `d` lower in
/// the old one.
struct Pair {
    measure: u64,
    old: Table,
    new: Table,
    edge: u64,
    d: u64,
}

impl Pair {
    fn of(measure: u64, old: Table, edge: u64, d: u64) -> Pair {
        let own = old.own[edge as usize] + d;
        let new = changed(&old, Change::Reprice(edge, own));
        Pair { measure, old, new, edge, d }
    }

    /// A live hyperedge of the table raised by any d that it has room for, from 0 at times.
    fn any(rng: &mut Rng, Call { measure, mut table, .. }: Call, edge: u64) -> Pair {
        let own = &mut table.own[edge as usize];
        if rng.chance(30) {
            *own = 0;
        }
        let room = GREATEST - *own;
        let d = match rng.below(8) {
            0 => 0,
            1 => room,
            2 | 3 => rng.below(room + 1),
            4 => rng.below(1_000),
            _ => rng.between(1, 5),
        };
        Pair::of(measure, table, edge, d.min(room))
    }
}

/// A vertex that is made in both tables: by how much it rises, and its bounds.
#[derive(Debug)]
struct Rise {
    vertex: u64,
    by: u128,
    least: u128,
    most: u128,
}

pub fn is_made(label: Label) -> bool {
    label.depth > 0 && label.weight != OVER
}

/// The rises of all vertices that are made in both. The same vertices must have no derivation, and
/// no weight falls.
///
/// In cost the bounds are d times a count. A count that the type can't hold stays at its greatest
/// number, and so does a product; both are compared with a rise, which is at most the ceiling. So
/// where a bound is not exact, it and the true one are both above every rise, and the comparison
/// comes out the same. For d = 0 both are 0.
fn rises(pair: &Pair, old: &Labelling, new: &Labelling) -> Result<Vec<Rise>, String> {
    let count = |table: &Table, labels: &Labelling| counts(table, labels, pair.edge as usize);
    let (before, after) = (count(&pair.old, old), count(&pair.new, new));
    let d = u128::from(pair.d);
    let mut rises = Vec::new();
    for vertex in 0..pair.old.n {
        let (low, high) = (old.label(vertex), new.label(vertex));
        if (low.depth == 0) != (high.depth == 0) {
            return Err(format!("vertex {vertex} is made in one table only"));
        }
        if !is_made(low) || !is_made(high) {
            continue;
        }
        let by = high.weight.checked_sub(low.weight).map(u128::from);
        let by = by.ok_or_else(|| format!("vertex {vertex} falls: {low:?}, then {high:?}"))?;
        let (least, most) = match pair.measure {
            COST => (after[vertex as usize], before[vertex as usize]),
            _ => (0, 1),
        };
        let [least, most] = [least, most].map(|count| d.saturating_mul(count));
        rises.push(Rise { vertex, by, least, most });
    }
    Ok(rises)
}

/// The table as the library settles it, which must be as the solver does.
pub fn settled(measure: u64, table: &Table, rng: &mut Rng) -> Result<Call, String> {
    let room = rng.labelling([table.n as usize; 4]);
    let (result, answers) = settle(measure, table, &room)?;
    expect("settle", result, 0)?;
    same("settle", &answers, &solve(measure, table))?;
    Ok(Call { measure, table: table.clone(), answers })
}

/// All that demand 3 says of the pair; the rises are for a closer look.
fn demanded(pair: &Pair, rng: &mut Rng) -> Result<Vec<Rise>, String> {
    let mut verdict = || {
        let old = settled(pair.measure, &pair.old, rng)?;
        let new = settled(pair.measure, &pair.new, rng)?;
        for (from, to) in [(&old, &new), (&new, &old)] {
            let own = to.table.own[pair.edge as usize];
            let left = accepted(from, Change::Reprice(pair.edge, own))?;
            leaves(&left, to)?;
        }
        let rises = rises(pair, &old.answers, &new.answers)?;
        match rises.iter().find(|rise| rise.by < rise.least || rise.most < rise.by) {
            Some(rise) => Err(format!("{rise:?}")),
            None => Ok(rises),
        }
    };
    verdict().map_err(|wrong: String| {
        let Pair { measure, old, edge, d, .. } = pair;
        format!("{wrong}; edge {edge} raised by {d}, measure {measure}, {}", old.describe())
    })
}

/// P3: vertex 3 rises by 500, between 2 × 200 and 3 × 200.
fn stated(trial: &Trial) -> Outcome {
    let [(change, then), _] = changes();
    let pair = Pair::of(COST, p1().table, change.edge(), 200);
    let (old, new) = (Labelling::of(&p1().labels), Labelling::of(&then.labels));
    let all = [rises(&pair, &old, &new)?, demanded(&pair, &mut trial.rng())?];
    for rises in &all {
        let third = rises.iter().find(|rise| rise.vertex == 3).ok_or("vertex 3 is not made")?;
        if (third.by, third.least, third.most) != (500, 2 * 200, 3 * 200) {
            return Err(format!("P3: {third:?}"));
        }
    }
    Ok(all.len() as u64)
}

/// A hyperedge that stands 16 to 4,096 times in a bill, and once on each path: raised by d, the
/// vertices above it rise by d in days, and in cost by d times the count.
fn once_on_a_path(trial: &Trial) -> Outcome {
    let mut table = Table::new(4);
    table.push(0, 5, &[]);
    (1..4).for_each(|level| table.push(level, 1, &[level - 1; LONGEST_TAIL]));
    for (measure, d) in [(DAYS, 1), (DAYS, 900), (COST, 7)] {
        let pair = Pair::of(measure, table.clone(), 0, d);
        let rises = demanded(&pair, &mut trial.rng())?;
        for (vertex, rise) in rises.iter().enumerate() {
            let count = if measure == COST { 16u128.pow(vertex as u32) } else { 1 };
            if rises.len() != 4 || rise.by != u128::from(d) * count {
                return Err(format!("measure {measure}, d {d}: {rises:?}"));
            }
        }
    }
    Ok(3)
}

/// A chain's first hyperedge raised so that its end goes over: that vertex is over in the new table
/// alone, and the others rise by d.
fn high_end(trial: &Trial) -> Outcome {
    let before = |vertex: u64| vertex.checked_sub(1).into_iter().collect::<Vec<_>>();
    let own = |vertex: u64| if vertex == 0 { GREATEST - 2 } else { GREATEST };
    let edges: Vec<_> = (0..1_000).map(|vertex| (vertex, own(vertex), before(vertex))).collect();
    let mut table = Table::of(1_000, &edges);
    table.n = 1_001;
    table.push(1_000, 1, &[999]);
    for (d, made) in [(1, 1_001), (2, 1_000)] {
        let rises = demanded(&Pair::of(DAYS, table.clone(), 0, d), &mut trial.rng())?;
        if rises.len() != made || rises.iter().any(|rise| rise.by != u128::from(d)) {
            return Err(format!("d {d}: {} vertices are made in both", rises.len()));
        }
    }
    Ok(2)
}

fn ties(rng: &mut Rng) -> Table {
    tables::random(rng, &tables::TIES)
}

/// Levels that need many of those below at no weight of their own, and dearer sources between: what
/// is below counts past any width in one table and not at all in the other.
fn deep(rng: &mut Rng) -> Table {
    let levels = rng.between(10, 120);
    let mut table = Table::new(levels);
    table.push(0, rng.pick(&[0, 0, 0, 1]), &[]);
    for level in 1..levels {
        let length = 1 + rng.index(LONGEST_TAIL);
        let below = |rng: &mut Rng| rng.between(level.saturating_sub(2), level - 1);
        let tail: Vec<u64> = (0..length).map(|_| below(rng)).collect();
        table.push(level, 0, &tail);
        if rng.chance(50) {
            table.push(level, rng.between(1, 40), &[]);
        }
    }
    table
}

/// A pair in each measure; the first hyperedge, on which much may rest, is raised more often.
fn raised(trial: &Trial, cases: u64, make: impl Fn(&mut Rng) -> Table + Copy) -> Outcome {
    trial.cases(cases, |rng| {
        for measure in MEASURES {
            let pair = any_pair(rng, measure, make)?;
            demanded(&pair, rng)?;
        }
        Ok(())
    })
}

fn any_pair(rng: &mut Rng, measure: u64, make: impl Fn(&mut Rng) -> Table) -> Result<Pair, String> {
    let call = priced(rng, measure, make);
    let first = call.table.is_live(0) && rng.chance(30);
    let edge = if first { Some(0) } else { live_edge(rng, &call) };
    let edge = edge.ok_or("no live hyperedge")?;
    Ok(Pair::any(rng, call, edge))
}

fn at_the_limits(trial: &Trial) -> Outcome {
    let mut rng = trial.rng();
    let mut cases = 0;
    for (name, table) in limits(&mut rng) {
        for measure in MEASURES {
            let call = Call::solved(measure, table.clone());
            if let Some(edge) = live_edge(&mut rng, &call) {
                let pair = Pair::any(&mut rng, call, edge);
                demanded(&pair, &mut rng).map_err(|wrong| format!("{name}: {wrong}"))?;
                cases += 1;
            }
        }
    }
    Ok(cases)
}

/// Each live hyperedge of every table of up to three small ones, raised by 1 and by 2; in the tables
/// of up to two by 0 as well.
fn all_small(trial: &Trial) -> Outcome {
    let kinds = small_edges();
    let mut rng = trial.rng();
    let mut cases = 0;
    for edges in 1..=3 {
        for number in 0..kinds.len().pow(edges) {
            let table = small_table(&kinds, edges, number);
            for edge in (0..edges as usize).filter(|&edge| table.is_live(edge)) {
                for d in u64::from(edges == 3)..3 {
                    for measure in MEASURES {
                        let pair = Pair::of(measure, table.clone(), edge as u64, d);
                        demanded(&pair, &mut rng)?;
                        cases += 1;
                    }
                }
            }
        }
    }
    Ok(cases)
}

/// The rarest kind of rise is met in some 200 cases.
const MOST_CASES: u64 = 100_000;

/// What must have been met, or the bounds were not put to the test.
type Kind = (&'static str, fn(&Pair, &Rise) -> bool);

const KINDS: [Kind; 8] = [
    ("at the lower bound alone", |_, rise| rise.by == rise.least && rise.by < rise.most),
    ("at the upper bound alone", |_, rise| rise.by == rise.most && rise.by > rise.least),
    ("between the bounds", |_, rise| rise.least < rise.by && rise.by < rise.most),
    ("at both", |_, rise| rise.least > 0 && rise.least == rise.most),
    ("at 0 below the upper bound", |_, rise| rise.by == 0 && rise.most > 0),
    ("counted more than once in both", |pair, rise| rise.least > u128::from(pair.d)),
    ("counted past the type", |_, rise| rise.by > 0 && rise.most == u128::MAX),
    ("raised by 0", |pair, _| pair.d == 0),
];

const DAYS_KINDS: [Kind; 4] = [
    ("raised by none of d", |pair, rise| rise.by == 0 && pair.d > 0),
    ("raised by some of d", |_, rise| 0 < rise.by && rise.by < rise.most),
    ("raised by all of d", |_, rise| 0 < rise.by && rise.by == rise.most),
    ("raised by 0", |pair, _| pair.d == 0),
];

/// Every kind of rise occurs: beyond the count, cases go on until the last kind is met.
fn all_kinds(trial: &Trial, measure: u64, kinds: &[Kind]) -> Outcome {
    let mut met = vec![false; kinds.len()];
    for number in 0..MOST_CASES {
        if number >= trial.count / 2 && met.iter().all(|&met| met) {
            return Ok(number);
        }
        let mut rng = Rng::stream(trial.seed, trial.name, number);
        let make = rng.pick::<fn(&mut Rng) -> Table>(&[tables::any, ties, deep, tables::over]);
        let pair = any_pair(&mut rng, measure, make)?;
        let rises = demanded(&pair, &mut rng);
        for rise in rises.map_err(|wrong| format!("case {number}: {wrong}"))? {
            for (met, (_, is_met)) in met.iter_mut().zip(kinds) {
                *met |= is_met(&pair, &rise);
            }
        }
    }
    let kinds = met.iter().zip(kinds).filter(|(&met, _)| !met).map(|(_, (kind, _))| *kind);
    Err(format!("no vertex is {}", kinds.collect::<Vec<_>>().join(", or ")))
}
