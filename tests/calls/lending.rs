//! Columns lent to a call, each between guard words, so that a write outside a column or into one
//! that the call must leave as it is comes to light.

use crate::model::{Labelling, Table};
use crate::trial::{Outcome, Test, Trial, Verdict};

/// Guard words on each side of a column.
const GUARD: usize = 8;

/// What columns are made of: numbers, or the bytes of a text.
pub trait Word: Copy + PartialEq {
    /// Nothing that an accepted table or text holds, so that reading one shows as well.
    fn guard(place: usize) -> Self;
}

impl Word for u64 {
    fn guard(place: usize) -> u64 {
        0xA5A5_5A5A_C3C3_0000 + place as u64
    }
}

impl Word for u8 {
    fn guard(place: usize) -> u8 {
        0xC0 + place as u8
    }
}

pub struct Column<'a, W = u64> {
    name: &'static str,
    given: &'a [W],
    words: Vec<W>,
}

impl<'a, W: Word> Column<'a, W> {
    pub fn lend(name: &'static str, given: &'a [W]) -> Column<'a, W> {
        let mut words = Vec::with_capacity(given.len() + 2 * GUARD);
        words.extend((0..GUARD).map(W::guard));
        words.extend_from_slice(given);
        words.extend((GUARD..2 * GUARD).map(W::guard));
        Column { name, given, words }
    }

    /// Mutable for read-only columns too: a write that the call must not make is then still defined
    /// on this side, and seen.
    pub fn pointer(&mut self) -> *mut W {
        self.words.as_mut_ptr().wrapping_add(GUARD)
    }

    pub fn len(&self) -> usize {
        self.given.len()
    }

    pub fn values(&self) -> &[W] {
        &self.words[GUARD..GUARD + self.given.len()]
    }

    pub fn guarded(&self) -> Verdict {
        let behind = GUARD + self.given.len();
        for place in 0..GUARD {
            if self.words[place] != W::guard(place) {
                return Err(format!("{}: written {} before the column", self.name, GUARD - place));
            }
            if self.words[behind + place] != W::guard(GUARD + place) {
                return Err(format!("{}: written {place} behind the column's end", self.name));
            }
        }
        Ok(())
    }

    pub fn kept(&self) -> Verdict {
        self.kept_but(None)
    }

    /// Guards and places are as lent, but the place `free` may hold anything.
    pub fn kept_but(&self, free: Option<u64>) -> Verdict {
        self.guarded()?;
        let values = self.values();
        let mut places = (0..values.len()).filter(|&place| Some(place as u64) != free);
        match places.find(|&place| values[place] != self.given[place]) {
            None => Ok(()),
            Some(place) => Err(format!("{}: place {place} must keep its bytes", self.name)),
        }
    }
}

pub struct LentTable<'a> {
    pub heads: Column<'a>,
    pub own: Column<'a>,
    pub strikes: Column<'a>,
    pub spans: Column<'a>,
    pub tails: Column<'a>,
}

impl<'a> LentTable<'a> {
    pub fn lend(table: &'a Table) -> LentTable<'a> {
        LentTable {
            heads: Column::lend("heads", &table.heads),
            own: Column::lend("own", &table.own),
            strikes: Column::lend("strikes", &table.strikes),
            spans: Column::lend("spans", &table.spans),
            tails: Column::lend("tails", &table.tails),
        }
    }

    pub fn guarded(&self) -> Verdict {
        self.heads.guarded()?;
        self.own.guarded()?;
        self.strikes.guarded()?;
        self.spans.guarded()?;
        self.tails.guarded()
    }

    pub fn kept(&self) -> Verdict {
        self.kept_but([None, None])
    }

    /// All is as lent, but a place of the own weights and one of the strikes may hold anything.
    pub fn kept_but(&self, [own, strike]: [Option<u64>; 2]) -> Verdict {
        self.heads.kept()?;
        self.own.kept_but(own)?;
        self.strikes.kept_but(strike)?;
        self.spans.kept()?;
        self.tails.kept()
    }

    /// The columns as they now stand.
    pub fn table(&self, n: u64) -> Table {
        Table {
            n,
            heads: self.heads.values().to_vec(),
            own: self.own.values().to_vec(),
            strikes: self.strikes.values().to_vec(),
            spans: self.spans.values().to_vec(),
            tails: self.tails.values().to_vec(),
        }
    }
}

pub struct LentLabelling<'a> {
    pub weights: Column<'a>,
    pub depths: Column<'a>,
    pub edges: Column<'a>,
    pub pieces: Column<'a>,
}

impl<'a> LentLabelling<'a> {
    pub fn lend(labelling: &'a Labelling) -> LentLabelling<'a> {
        LentLabelling {
            weights: Column::lend("weights", &labelling.weights),
            depths: Column::lend("depths", &labelling.depths),
            edges: Column::lend("edges", &labelling.edges),
            pieces: Column::lend("pieces", &labelling.pieces),
        }
    }

    pub fn guarded(&self) -> Verdict {
        self.weights.guarded()?;
        self.depths.guarded()?;
        self.edges.guarded()?;
        self.pieces.guarded()
    }

    pub fn kept(&self) -> Verdict {
        self.weights.kept()?;
        self.depths.kept()?;
        self.edges.kept()?;
        self.pieces.kept()
    }

    pub fn labelling(&self) -> Labelling {
        Labelling {
            weights: self.weights.values().to_vec(),
            depths: self.depths.values().to_vec(),
            edges: self.edges.values().to_vec(),
            pieces: self.pieces.values().to_vec(),
        }
    }
}

/// The guards themselves: each write that they are there for must be found.
pub const TESTS: &[Test] = &[Test { name: "lending/guards", run: guards }];

fn guards(_: &Trial) -> Outcome {
    let words = writes_found(&[1, 2, 3], |word: u64| word ^ 1 << 63)?;
    let bytes = writes_found(b"0 1\n", |byte: u8| byte ^ 1)?;
    Ok(words + bytes)
}

/// One write at each word of a lent column and of its guards.
fn writes_found<W: Word>(given: &[W], other: fn(W) -> W) -> Outcome {
    Column::lend("column", given).kept()?;
    let mut cases = 0;
    for place in 0..given.len() + 2 * GUARD {
        let mut column = Column::lend("column", given);
        column.words[place] = other(column.words[place]);
        let inside = (GUARD..GUARD + given.len()).contains(&place);
        let free = Some(1);
        let is_free = place == GUARD + 1;
        if column.kept().is_ok() || column.guarded().is_ok() != inside {
            return Err(format!("a write at word {place} of a lent column is not found"));
        }
        if column.kept_but(free).is_ok() != is_free {
            return Err(format!("a write at word {place}, where only {} is free", GUARD + 1));
        }
        cases += 1;
    }
    Ok(cases)
}
