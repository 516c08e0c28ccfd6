//! Tables in topological order: the rule, and the refusals of the calls that ask for it.

use crate::model::solver::{refusal, table_result};
use crate::model::*;

/// Whether a hyperedge whose span is within the column lists only vertices below its head.
fn keeps(table: &Table, edge: usize) -> bool {
    table.tail(edge).iter().all(|&vertex| vertex < table.heads[edge])
}

/// The table without the hyperedges from `edge` on; what they list stays as a gap.
fn up_to(table: &Table, edge: usize) -> Table {
    let mut table = table.clone();
    table.heads.truncate(edge);
    table.own.truncate(edge);
    table.strikes.truncate(edge);
    table.spans.truncate(2 * edge);
    table
}

/// What checking the order must return: 1, 2, or the refusal of the first hyperedge that is refused
/// by itself or breaks the rule.
pub fn order_result(table: &Table) -> u64 {
    let result = table_result(table);
    if [1, 2].contains(&(result >> 32)) {
        return result;
    }
    for edge in 0..table.edges() {
        let so_far = table_result(&up_to(table, edge + 1));
        if so_far != 0 {
            return so_far;
        }
        if !keeps(table, edge) {
            return refusal(24, edge as u64);
        }
    }
    0
}

/// What settling in order must return: 16, what checking the order does, then 7.
pub fn ordered_result(measure: u64, table: &Table, answers: &Labelling) -> u64 {
    if !MEASURES.contains(&measure) {
        return refusal(16, 0);
    }
    let result = order_result(table);
    if result != 0 {
        return result;
    }
    let fits = answers.lengths().iter().all(|&length| length as u64 == table.n);
    if fits {
        0
    } else {
        refusal(7, 0)
    }
}
