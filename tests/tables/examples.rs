//! The specification's own examples, with the answers that it states.

use crate::model::*;

pub struct Example {
    pub name: &'static str,
    pub measure: u64,
    pub table: Table,
    pub labels: Vec<Label>,
}

pub fn worked() -> Table {
    let edges: [(u64, u64, &[u64]); 6] = [
        (0, 1_200, &[]),
        (1, 300, &[]),
        (2, 500, &[0, 1]),
        (2, 2_100, &[]),
        (3, 0, &[2, 1, 1]),
        (4, 10, &[4]),
    ];
    Table::of(5, &edges)
}

/// The worked table as a change of a hyperedge leaves it: with another own weight, or struck.
fn worked_with(edge: usize, own: u64) -> Table {
    let mut table = worked();
    table.own[edge] = own;
    table
}

fn worked_without(edge: usize) -> Table {
    let mut table = worked();
    table.strikes[edge] = STRUCK;
    table
}

/// Two vertices that need one another and nothing else.
pub fn circle() -> Table {
    Table::of(2, &[(0, 0, [1]), (1, 0, [0])])
}

fn thousands(last: u64) -> Table {
    let ten = |vertex| vec![vertex; 10];
    Table::of(4, &[(0, GREATEST, vec![]), (1, 0, ten(0)), (2, 0, ten(1)), (3, last, ten(2))])
}

fn example(name: &'static str, measure: u64, table: Table, labels: &[Numbers]) -> Example {
    let labels = labels.iter();
    let labels = labels.map(|&(weight, depth, edge, pieces)| Label { weight, depth, edge, pieces });
    Example { name, measure, table, labels: labels.collect() }
}

/// Weight, depth, hyperedge and pieces: of no derivation, and of the worked table's first two
/// vertices.
type Numbers = (u64, u64, u64, u64);
const NONE: Numbers = (0, 0, 0, 0);
const ZERO: Numbers = (1_200, 1, 0, 1);
const ONE: Numbers = (300, 1, 1, 1);

pub fn p1() -> Example {
    example("P1", COST, worked(), &[ZERO, ONE, (2_000, 2, 2, 2), (2_600, 3, 4, 4), NONE])
}

fn p3() -> Example {
    let labels = [ZERO, (500, 1, 1, 1), (2_100, 1, 3, 1), (3_100, 2, 4, 3), NONE];
    example("P3, settled anew", COST, worked_with(1, 500), &labels)
}

pub fn p10() -> Example {
    let labels = [NONE, ONE, (2_100, 1, 3, 1), (2_700, 2, 4, 3), NONE];
    example("P10, settled anew", COST, worked_without(0), &labels)
}

/// What is asked of the worked table, and what it is then.
pub fn changes() -> [(Change, Example); 2] {
    [(Change::Reprice(1, 500), p3()), (Change::Strike(0), p10())]
}

/// The worked table in grade, part 3 of this grade.
fn grades(third: u64) -> [(u64, u64, u64, u64); 5] {
    [ZERO, ONE, (2_100, 1, 3, 1), (third, 2, 4, 3), NONE]
}

pub fn examples() -> Vec<Example> {
    let tens = [(GREATEST, 1, 0, 1), (10 * GREATEST, 2, 1, 10), (100 * GREATEST, 3, 2, 100)];
    let [first, second, third] = tens;
    let shorter = Table::of(2, &[(0, 5, vec![]), (1, 0, vec![0]), (1, 5, vec![])]);
    let p4 = [ZERO, ONE, (1_700, 2, 2, 2), (1_700, 3, 4, 4), NONE];
    vec![
        p1(),
        p3(),
        example("P4", DAYS, worked(), &p4),
        example("P5", COST, Table::new(0), &[]),
        example("P5 in days", DAYS, Table::new(0), &[]),
        example("P6", COST, circle(), &[NONE, NONE]),
        example("P6 in days", DAYS, circle(), &[NONE, NONE]),
        example("P7", COST, thousands(0), &[first, second, third, (CEILING, 4, 3, 1_000)]),
        example("P8", COST, thousands(1), &[first, second, third, (OVER, 4, 3, 1_000)]),
        example("P9", COST, shorter.clone(), &[(5, 1, 0, 1), (5, 1, 2, 1)]),
        example("P9 in days", DAYS, shorter, &[(5, 1, 0, 1), (5, 1, 2, 1)]),
        p10(),
        example("worked in grade", GRADE, worked(), &grades(0)),
        example("line 4 at 250 in grade", GRADE, worked_with(4, 250), &grades(250)),
        example("line 4 at 400 in grade", GRADE, worked_with(4, 400), &grades(300)),
        example("P6 in grade", GRADE, circle(), &[NONE, NONE]),
    ]
}
