//! Faults put into a sound change: those of any call, and of what only a change looks at.

use crate::model::*;
use crate::random::Rng;
use crate::tables;
use crate::tables::damage::{damaged, faults, sound, Call, Fault, Rank};

/// A fault that any call meets, or one of what only a change looks at.
#[derive(Clone, Copy, Debug)]
pub enum Flaw {
    Call(Fault),
    /// A hyperedge that does not exist.
    Edge(u64),
    /// One that is struck; for restoring, one that stands.
    Marked,
    /// A new own weight above the greatest.
    Own(u64),
    /// A column, a vertex, and what is added to its place.
    Label(usize, usize, u64),
}

impl Flaw {
    /// The lowest is reported: what any call meets, then 9, 20, 10 and 8. None if the change does not
    /// look at it.
    pub fn rank(&self, change: Change) -> Option<Rank> {
        match (self, change) {
            (Flaw::Call(fault), _) => Some(fault.rank()),
            (Flaw::Edge(_), _) => Some(Rank::at(5, 9)),
            (Flaw::Marked, Change::Restore(_)) => Some(Rank::at(6, 20)),
            (Flaw::Marked, _) => Some(Rank::at(5, 9)),
            (Flaw::Own(_), Change::Reprice(..)) => Some(Rank::at(7, 10)),
            (Flaw::Own(_), _) => None,
            (Flaw::Label(..), _) => Some(Rank::at(8, 8)),
        }
    }
}

/// The vertices and hyperedges of the sound call; its last hyperedge is struck.
const VERTICES: usize = 5;
const EDGES: u64 = 7;

/// A call that any change of another hyperedge than the last is accepted for, and a restoring of the
/// last.
pub fn sound_call(rng: &mut Rng) -> Call {
    let Call { measure, mut table, .. } = sound(rng);
    table.push_marked(2, 0, STRUCK, &[]);
    Call::solved(measure, table)
}

pub fn sound_changes(rng: &mut Rng) -> [Change; 3] {
    let own = tables::any_own(rng);
    let standing = [rng.below(EDGES - 1), rng.below(EDGES - 1)];
    [Change::Reprice(standing[0], own), Change::Strike(standing[1]), Change::Restore(EDGES - 1)]
}

/// Not below `edges`; many are, once they are narrowed or taken times 8.
pub fn outside(edges: u64) -> Vec<u64> {
    let mut outside = vec![edges, edges + 1, MOST_EDGES as u64, (1 << 31) + 1];
    outside.extend([32, 60, 61, 63].iter().flat_map(|bit| [1 << bit, (1 << bit) + 1]));
    outside.extend([u64::MAX - edges, u64::MAX - 1, u64::MAX]);
    outside
}

pub const TOO_GREAT: [u64; 7] =
    [GREATEST + 1, GREATEST + 2, CEILING, (1 << 32) + 5, 1 << 63, u64::MAX - 1, u64::MAX];

pub fn flaws() -> Vec<Flaw> {
    let mut all: Vec<Flaw> = faults().into_iter().map(Flaw::Call).collect();
    all.push(Flaw::Marked);
    all.extend(outside(EDGES).into_iter().map(Flaw::Edge));
    all.extend(TOO_GREAT.map(Flaw::Own));
    for column in 0..4 {
        for vertex in 0..VERTICES {
            all.extend([1, u64::MAX].map(|more| Flaw::Label(column, vertex, more)));
        }
    }
    all
}

/// The call and the change with all the flaws. Other labels go in while the columns are whole.
pub fn flawed(call: &Call, mut change: Change, flaws: &[Flaw]) -> (Call, Change) {
    let mut call = call.clone();
    let mut faults = Vec::new();
    // Of two that name a hyperedge the one that is reported goes in last.
    let mut flaws = flaws.to_vec();
    flaws.sort_by_key(|flaw| std::cmp::Reverse(flaw.rank(change)));
    for flaw in flaws {
        match (flaw, &mut change) {
            (Flaw::Call(fault), _) => faults.push(fault),
            (
                Flaw::Edge(other),
                Change::Reprice(edge, _) | Change::Strike(edge) | Change::Restore(edge),
            ) => *edge = other,
            (Flaw::Marked, Change::Reprice(edge, _) | Change::Strike(edge)) => *edge = EDGES - 1,
            (Flaw::Marked, Change::Restore(edge)) => *edge = 0,
            (Flaw::Own(other), Change::Reprice(_, own)) => *own = other,
            (Flaw::Own(_), _) => {}
            (Flaw::Label(column, vertex, more), _) => {
                let place = &mut call.answers.columns_mut()[column][vertex];
                *place = place.wrapping_add(more);
            }
        }
    }
    (damaged(&call, &faults), change)
}

/// What the change returns for all the flaws together; 0 if it looks at none.
pub fn reported(flaws: &[Flaw], change: Change) -> u64 {
    Rank::reported(flaws.iter().filter_map(|flaw| flaw.rank(change)))
}
