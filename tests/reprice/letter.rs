//! The bound of a price letter: two cost tables that differ in own weights alone, some raised and
//! some cut. The library settles both, and each change keeps to the sums of its two bills.

use crate::calls::bill;
use crate::model::solver::bill_lengths;
use crate::model::*;
use crate::random::Rng;
use crate::reprice::changes::{accepted, after, priced};
use crate::reprice::raising::{is_made, settled};
use crate::settle::{large, same};
use crate::tables;
use crate::tables::damage::Call;
use crate::tables::examples::worked;
use crate::trial::{expect, Outcome, Test, Trial};

pub const TESTS: &[Test] = &[
    Test { name: "letter/stated", run: stated },
    Test { name: "letter/random", run: |trial| letters(trial, 2 * trial.count, tables::any) },
    Test { name: "letter/ties", run: |trial| letters(trial, trial.count, ties) },
    Test { name: "letter/over", run: |trial| letters(trial, trial.count, tables::over) },
    Test { name: "letter/ceiling", run: |trial| letters(trial, trial.count / 2, tables::ceiling) },
    Test { name: "letter/large", run: |trial| letters(trial, trial.count / 40, large) },
    Test { name: "letter/printed", run: printed },
    Test { name: "letter/line-by-line", run: line_by_line },
    Test { name: "letter/both-ways", run: both_ways },
    Test { name: "letter/all-kinds", run: all_kinds },
];

/// Two tables that agree but for their own weights.
struct Letter {
    old: Table,
    new: Table,
}

impl Letter {
    /// None, one, few or all live hyperedges changed, up and down, to the ends at times.
    fn any(rng: &mut Rng, old: Table) -> Letter {
        let mut new = old.clone();
        let mut live: Vec<usize> = (0..old.edges()).filter(|&edge| old.is_live(edge)).collect();
        rng.shuffle(&mut live);
        let few = 1 + rng.index(6);
        let number = rng.pick(&[0, 1, few, few, live.len(), live.len()]).min(live.len());
        for &edge in &live[..number] {
            let own = new.own[edge];
            new.own[edge] = match rng.below(8) {
                0 => 0,
                1 => GREATEST,
                2 => rng.below(GREATEST + 1),
                3 => own - own / 2,
                4 | 5 => own.saturating_sub(rng.between(1, 9)),
                _ => (own + rng.between(1, 9)).min(GREATEST),
            };
        }
        Letter { old, new }
    }

    fn changes(&self) -> Vec<i128> {
        let pairs = self.new.own.iter().zip(&self.old.own);
        pairs.map(|(&new, &old)| i128::from(new) - i128::from(old)).collect()
    }

    fn raises_and_cuts(&self) -> bool {
        let changes = self.changes();
        changes.iter().any(|&change| change > 0) && changes.iter().any(|&change| change < 0)
    }

    fn reversed(&self) -> Letter {
        Letter { old: self.new.clone(), new: self.old.clone() }
    }
}

/// For each vertex the sum over all hyperedges of change times count in its chosen derivation; none
/// where 128 bits can't hold it, nor where there is no derivation.
fn sums(changes: &[i128], table: &Table, labels: &Labelling) -> Vec<Option<i128>> {
    let mut sums = vec![None; table.n as usize];
    let mut made: Vec<usize> = (0..sums.len()).collect();
    made.retain(|&vertex| labels.depths[vertex] > 0);
    // What a chosen hyperedge needs is less deep, so its sum is there before.
    made.sort_by_key(|&vertex| labels.depths[vertex]);
    for vertex in made {
        let chosen = labels.edges[vertex] as usize;
        let mut below = table.tail(chosen).iter().map(|&needed| sums[needed as usize]);
        sums[vertex] = below.try_fold(changes[chosen], |sum, part| sum.checked_add(part?));
    }
    sums
}

/// A vertex that is made in both tables: by how much it changes, and its bounds.
#[derive(Debug, PartialEq)]
struct Bounds {
    vertex: u64,
    by: i128,
    least: i128,
    most: i128,
}

/// The changes of all vertices that are made in both and whose sums are held. The same vertices must
/// have no derivation.
fn bounds(letter: &Letter, old: &Labelling, new: &Labelling) -> Result<Vec<Bounds>, String> {
    let changes = letter.changes();
    let most = sums(&changes, &letter.old, old);
    let least = sums(&changes, &letter.new, new);
    let mut bounds = Vec::new();
    for vertex in 0..letter.old.n {
        let (before, then) = (old.label(vertex), new.label(vertex));
        if (before.depth == 0) != (then.depth == 0) {
            return Err(format!("vertex {vertex} is made in one table only"));
        }
        if !is_made(before) || !is_made(then) {
            continue;
        }
        if let (Some(least), Some(most)) = (least[vertex as usize], most[vertex as usize]) {
            let by = i128::from(then.weight) - i128::from(before.weight);
            bounds.push(Bounds { vertex, by, least, most });
        }
    }
    Ok(bounds)
}

fn told(letter: &Letter, wrong: String) -> String {
    format!("{wrong}; new own weights {:?}, {}", letter.new.own, letter.old.describe())
}

/// Both tables as the library settles them.
fn both(letter: &Letter, rng: &mut Rng) -> Result<[Call; 2], String> {
    Ok([settled(COST, &letter.old, rng)?, settled(COST, &letter.new, rng)?])
}

/// All changes are within their bounds.
fn bounded(letter: &Letter, rng: &mut Rng) -> Result<Vec<Bounds>, String> {
    let mut verdict = || {
        let [old, new] = both(letter, rng)?;
        let bounds = bounds(letter, &old.answers, &new.answers)?;
        match bounds.iter().find(|one| one.by < one.least || one.most < one.by) {
            Some(one) => Err(format!("{one:?}")),
            None => Ok(bounds),
        }
    };
    verdict().map_err(|wrong: String| told(letter, wrong))
}

/// The worked table, line 1 from 300 to 500 and line 3 from 2100 to 1900.
fn stated(trial: &Trial) -> Outcome {
    let old = worked();
    let mut new = old.clone();
    (new.own[1], new.own[3]) = (500, 1_900);
    let all = bounded(&Letter { old, new }, &mut trial.rng())?;
    let wanted = [(2, -100, -200, 200), (3, 300, 200, 600)];
    for (vertex, by, least, most) in wanted {
        let one = all.iter().find(|one| one.vertex == vertex);
        if one != Some(&Bounds { vertex, by, least, most }) {
            return Err(format!("vertex {vertex}: {one:?}"));
        }
    }
    Ok(wanted.len() as u64)
}

fn ties(rng: &mut Rng) -> Table {
    tables::random(rng, &tables::TIES)
}

fn any_letter(rng: &mut Rng, make: impl Fn(&mut Rng) -> Table) -> Letter {
    let old = priced(rng, COST, make).table;
    Letter::any(rng, old)
}

fn letters(trial: &Trial, cases: u64, make: impl Fn(&mut Rng) -> Table + Copy) -> Outcome {
    trial.cases(cases, |rng| bounded(&any_letter(rng, make), rng).map(|_| ()))
}

/// Longer bills than this are not printed.
const LONGEST_BILL: u128 = 3_000;

/// The changes along the bills that the library prints come to the same sums.
fn printed(trial: &Trial) -> Outcome {
    let mut compared = 0;
    trial.cases(trial.count / 4, |rng| {
        let letter = any_letter(rng, tables::any);
        let changes = letter.changes();
        for call in both(&letter, rng)? {
            let lengths = bill_lengths(&call.table, &call.answers);
            let sums = sums(&changes, &call.table, &call.answers);
            for vertex in 0..call.table.n {
                let length = lengths[vertex as usize];
                if length > 0 && length <= LONGEST_BILL {
                    let along = along_the_bill(&changes, &call, vertex, length as usize)?;
                    if sums[vertex as usize] != Some(along) {
                        return Err(told(
                            &letter,
                            format!("vertex {vertex} along its bill: {along}"),
                        ));
                    }
                    compared += 1;
                }
            }
        }
        Ok(())
    })?;
    Ok(compared)
}

fn along_the_bill(
    changes: &[i128],
    call: &Call,
    vertex: u64,
    length: usize,
) -> Result<i128, String> {
    let room = vec![0; length];
    let (result, lines) = bill(COST, &call.table, &call.answers, vertex, &room)?;
    expect("the bill", result, length as u64)?;
    Ok(lines.iter().map(|&line| changes[line as usize]).sum())
}

/// Repricing the changed hyperedges one after another, in any order, carries the old answers to the
/// new table's.
fn line_by_line(trial: &Trial) -> Outcome {
    trial.cases(trial.count / 4, |rng| {
        let letter = any_letter(rng, tables::any);
        let [mut call, new] = both(&letter, rng)?;
        let changed = |edge: &usize| letter.new.own[*edge] != letter.old.own[*edge];
        let mut edges: Vec<usize> = (0..letter.old.edges()).filter(changed).collect();
        rng.shuffle(&mut edges);
        for edge in edges {
            let left = accepted(&call, Change::Reprice(edge as u64, letter.new.own[edge]))?;
            call = after(&call, left);
        }
        same("the letter line by line", &call.answers, &new.answers)
            .map_err(|wrong| told(&letter, wrong))
    })
}

/// A letter and its reverse have mirrored bounds.
fn both_ways(trial: &Trial) -> Outcome {
    trial.cases(trial.count / 2, |rng| {
        let letter = any_letter(rng, tables::any);
        let there = bounded(&letter, rng)?;
        let mirrored = |one: &Bounds| Bounds {
            vertex: one.vertex,
            by: -one.by,
            least: -one.most,
            most: -one.least,
        };
        let wanted: Vec<Bounds> = there.iter().map(mirrored).collect();
        let back = bounded(&letter.reversed(), rng)?;
        if back != wanted {
            return Err(told(&letter, format!("back: {back:?}, wanted {wanted:?}")));
        }
        Ok(())
    })
}

/// How many letters with raises and cuts must have been compared.
const LETTERS: u64 = 1_000;

const MOST_CASES: u64 = 100_000;

/// What must have been met, or the bounds were not put to the test.
type Kind = (&'static str, fn(&Bounds) -> bool);

const KINDS: [Kind; 8] = [
    ("falling", |one| one.by < 0),
    ("rising", |one| one.by > 0),
    ("between bounds of both signs", |one| one.least < 0 && one.most > 0),
    ("at the lower bound alone", |one| one.least == one.by && one.by < one.most),
    ("at the upper bound alone", |one| one.least < one.by && one.by == one.most),
    ("strictly between", |one| one.least < one.by && one.by < one.most),
    ("falling by what its old bill does", |one| one.by < 0 && one.by == one.most),
    ("falling though its old bill rises", |one| one.by < 0 && one.most > 0),
];

/// Every kind of change occurs, and letters with raises and cuts at once are many.
fn all_kinds(trial: &Trial) -> Outcome {
    let mut met = [false; KINDS.len()];
    let mut mixed = 0;
    for number in 0..MOST_CASES {
        if mixed >= LETTERS && met.iter().all(|&met| met) {
            return Ok(mixed);
        }
        let mut rng = Rng::stream(trial.seed, trial.name, number);
        let make = rng.pick::<fn(&mut Rng) -> Table>(&[tables::any, ties, tables::over]);
        let letter = any_letter(&mut rng, make);
        let bounds =
            bounded(&letter, &mut rng).map_err(|wrong| format!("case {number}: {wrong}"))?;
        mixed += u64::from(letter.raises_and_cuts() && !bounds.is_empty());
        for one in bounds {
            for (met, (_, is_met)) in met.iter_mut().zip(KINDS) {
                *met |= is_met(&one);
            }
        }
    }
    let kinds = met.iter().zip(KINDS).filter(|(&met, _)| !met).map(|(_, (kind, _))| kind);
    Err(format!("{mixed} letters; no vertex is {}", kinds.collect::<Vec<_>>().join(", or ")))
}
