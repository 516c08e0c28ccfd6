//! What appending is lent, and what it must return and leave.

use crate::calls::growth::append;
use crate::model::growth::{Growth, Index};
use crate::model::solver::solve;
use crate::model::*;
use crate::random::Rng;
use crate::tables;
use crate::trial::{expect, Verdict};

impl Growth {
    /// An accepted table whose columns have no place to spare, with its answers and index; the new
    /// line stands.
    pub fn exact(measure: u64, table: &Table, head: u64, figure: u64, needed: &[u64]) -> Growth {
        Growth {
            measure,
            lines: table.edges() as u64,
            listed: table.tails.len() as u64,
            answers: solve(measure, table),
            index: Index::of(table),
            table: table.clone(),
            head,
            figure,
            mark: STANDS,
            needed: needed.to_vec(),
        }
    }

    /// So many places more of heads, own, strikes, spans, tails, index and list.
    pub fn spare(&mut self, places: [usize; 7], mut word: impl FnMut(u64) -> u64) {
        let [heads, own, strikes, spans, tails] = self.table.columns_mut();
        let Index { pairs, list } = &mut self.index;
        let columns = [heads, own, strikes, spans, tails, pairs, list];
        for (column, places) in columns.into_iter().zip(places) {
            column.extend((0..places as u64).map(&mut word));
        }
    }

    /// Another line to append.
    pub fn with(self, (head, figure, mark, needed): Line) -> Growth {
        Growth { head, figure, mark, needed, ..self }
    }
}

/// Head, own figure, mark and needed parts.
pub type Line = (u64, u64, u64, Vec<u64>);

pub fn any_line(rng: &mut Rng, n: u64) -> Line {
    let figure = tables::any_own(rng);
    let mark = if rng.chance(15) { STRUCK } else { STANDS };
    let size = rng.pick(&[0, 0, 1, 1, 2, 3, 5, 16]);
    let mut needed: Vec<u64> = (0..size).map(|_| rng.below(n)).collect();
    if size > 1 && rng.chance(40) {
        needed[0] = needed[size - 1];
    }
    (rng.below(n), figure, mark, needed)
}

/// A table with spare places of noise and a line; now and then one has no room for it.
pub fn any_growth(rng: &mut Rng, measure: u64, table: &Table) -> Growth {
    let mut growth = Growth::exact(measure, table, 0, 0, &[]).with(any_line(rng, table.n));
    let listed = growth.needed.len();
    let mut some = |least: usize| if rng.chance(3) { 0 } else { least + rng.index(4) };
    let places = [1, 1, 1, 2, listed, 0, listed].map(&mut some);
    growth.spare(places, |_| rng.any());
    growth
}

/// Everything lent is as wanted.
pub fn same_growth(got: &Growth, wanted: &Growth) -> Verdict {
    if (got.lines, got.listed) != (wanted.lines, wanted.listed) {
        let counts = (got.lines, got.listed, wanted.lines, wanted.listed);
        return Err(format!("counts and wanted counts {counts:?}"));
    }
    if got.table != wanted.table {
        return Err(format!("left {}, wanted {}", got.table.describe(), wanted.table.describe()));
    }
    if got.answers != wanted.answers {
        return Err("other answers".to_string());
    }
    if got.index != wanted.index {
        return Err(format!("left {:?}, wanted {:?}", got.index, wanted.index));
    }
    Ok(())
}

/// The call returns this, and leaves the longer table if that is 0, else what was lent.
pub fn returns(growth: &Growth, wanted: u64) -> Result<Growth, String> {
    let verdict = || {
        let (result, left) = append(growth)?;
        expect("appending", result, wanted)?;
        let then = if wanted == 0 { growth.after() } else { growth.clone() };
        same_growth(&left, &then).map(|()| left)
    };
    verdict().map_err(|wrong| format!("{wrong}; {}", growth.describe()))
}

pub fn accepted(growth: &Growth) -> Result<Growth, String> {
    returns(growth, 0)
}

pub fn as_model_says(growth: &Growth) -> Result<(u64, Growth), String> {
    let wanted = growth.result();
    returns(growth, wanted).map(|left| (wanted, left))
}
