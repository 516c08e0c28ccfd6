//! The index of a table by looking through every line for every part, and what appending a line
//! must return and leave, by the words of the request. No count is kept and nothing is sorted.

use crate::model::solver::{refusal, solve, table_result};
use crate::model::*;

/// Pairs of offset and length, and the list of lines.
#[derive(Clone, PartialEq, Debug)]
pub struct Index {
    pub pairs: Vec<u64>,
    pub list: Vec<u64>,
}

impl Index {
    pub fn of(table: &Table) -> Index {
        let mut index = Index { pairs: vec![], list: vec![] };
        for part in 0..table.n {
            let lines = (0..table.edges()).filter(|&edge| table.tail(edge).contains(&part));
            let before = index.list.len();
            index.list.extend(lines.map(|edge| edge as u64));
            index.pairs.extend([before as u64, (index.list.len() - before) as u64]);
        }
        index
    }
}

/// The start of a column replaced.
pub fn over(new: &[u64], column: &[u64]) -> Vec<u64> {
    [new, &column[new.len()..]].concat()
}

/// What `index_table` returns, and the columns that it leaves.
pub fn indexed(table: &Table, lent: &Index) -> (u64, Index) {
    let result = table_result(table);
    if result != 0 {
        return (result, lent.clone());
    }
    let right = Index::of(table);
    if lent.pairs.len() < right.pairs.len() || lent.list.len() < right.list.len() {
        return (refusal(18, 0), lent.clone());
    }
    let left =
        Index { pairs: over(&right.pairs, &lent.pairs), list: over(&right.list, &lent.list) };
    (right.list.len() as u64, left)
}

/// All that appending is lent: the columns with places to spare, and the counts in use.
#[derive(Clone)]
pub struct Growth {
    pub measure: u64,
    pub table: Table,
    pub lines: u64,
    pub listed: u64,
    pub answers: Labelling,
    pub index: Index,
    pub head: u64,
    pub figure: u64,
    pub mark: u64,
    pub needed: Vec<u64>,
}

impl Growth {
    /// The table of the counts in use, which must be within their columns.
    pub fn in_use(&self) -> Table {
        let (lines, listed) = (self.lines as usize, self.listed as usize);
        Table {
            n: self.table.n,
            heads: self.table.heads[..lines].to_vec(),
            own: self.table.own[..lines].to_vec(),
            strikes: self.table.strikes[..lines].to_vec(),
            spans: self.table.spans[..2 * lines].to_vec(),
            tails: self.table.tails[..listed].to_vec(),
        }
    }

    /// Where the last span in use ends.
    fn end(&self) -> u128 {
        match self.lines as usize {
            0 => 0,
            lines => {
                let span = &self.table.spans[2 * lines - 2..2 * lines];
                u128::from(span[0]) + u128::from(span[1])
            }
        }
    }

    pub fn longer(&self) -> Table {
        let mut table = self.in_use();
        table.tails.truncate(self.end() as usize);
        table.push_marked(self.head, self.figure, self.mark, &self.needed);
        table
    }

    /// 1 and 2.
    fn counts_result(&self) -> u64 {
        if self.table.n > MOST_VERTICES {
            return refusal(1, 0);
        }
        let (lines, listed) = (u128::from(self.lines), u128::from(self.listed));
        let places = self.table.columns().map(|column| column.len() as u128);
        let taken = [lines, lines, lines, 2 * lines, listed];
        let within = taken.iter().zip(places).all(|(&taken, places)| taken <= places);
        let room = MOST_TAILS as u128;
        if !within
            || lines + 1 > MOST_EDGES as u128
            || listed > room
            || self.end() + self.needed.len() as u128 > room
        {
            return refusal(2, 0);
        }
        0
    }

    /// 3, 4, 21, 5 and 6 of the new line.
    fn line_result(&self) -> u64 {
        let refused = |number| refusal(number, self.lines);
        if self.head >= self.table.n {
            return refused(3);
        }
        if self.figure > GREATEST {
            return refused(4);
        }
        if !MARKS.contains(&self.mark) {
            return refused(21);
        }
        if self.needed.len() > LONGEST_TAIL {
            return refused(5);
        }
        if self.needed.iter().any(|&part| part >= self.table.n) {
            return refused(6);
        }
        0
    }

    /// 18.
    fn lacks_room(&self) -> bool {
        let longer = self.longer();
        let after = Index::of(&longer);
        let taken = longer.columns().map(Vec::len);
        let lent = self.table.columns().map(Vec::len);
        taken.iter().zip(lent).any(|(&taken, lent)| taken > lent)
            || self.index.pairs.len() < after.pairs.len()
            || self.index.list.len() < after.list.len()
    }

    pub fn result(&self) -> u64 {
        if !MEASURES.contains(&self.measure) {
            return refusal(16, 0);
        }
        let counts = self.counts_result();
        if counts != 0 {
            return counts;
        }
        let held = self.in_use();
        for result in [table_result(&held), self.line_result()] {
            if result != 0 {
                return result;
            }
        }
        if self.answers.lengths() != [held.n as usize; 4] {
            return refusal(7, 0);
        }
        if self.lacks_room() {
            return refusal(18, 0);
        }
        let right = Index::of(&held);
        let is_index =
            self.index.pairs.starts_with(&right.pairs) && self.index.list.starts_with(&right.list);
        if !is_index {
            return refusal(19, 0);
        }
        if self.answers != solve(self.measure, &held) {
            return refusal(8, 0);
        }
        0
    }

    /// What is lent then, counts included.
    pub fn after(&self) -> Growth {
        let longer = self.longer();
        let index = Index::of(&longer);
        let table = Table {
            n: longer.n,
            heads: over(&longer.heads, &self.table.heads),
            own: over(&longer.own, &self.table.own),
            strikes: over(&longer.strikes, &self.table.strikes),
            spans: over(&longer.spans, &self.table.spans),
            tails: over(&longer.tails, &self.table.tails),
        };
        Growth {
            lines: longer.edges() as u64,
            listed: longer.tails.len() as u64,
            answers: solve(self.measure, &longer),
            index: Index {
                pairs: over(&index.pairs, &self.index.pairs),
                list: over(&index.list, &self.index.list),
            },
            table,
            ..self.clone()
        }
    }

    pub fn describe(&self) -> String {
        let (table, answers) = (self.table.describe(), self.answers.describe());
        let line = (self.head, self.figure, self.mark, &self.needed);
        let counts = (self.lines, self.listed);
        format!("measure {}, counts {counts:?}, line {line:?}, {answers}, {table}", self.measure)
    }
}
