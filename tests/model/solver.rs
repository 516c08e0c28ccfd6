//! The answers worked out a second way, to compare with: weights by rounds over all hyperedges
//! until nothing changes, then depths over the tight ones, then the lowest hyperedge. No queue, no
//! order of settling. Piece counts by recursion over the chosen hyperedges. What a change leaves, how often a hyperedge stands in a derivation, and the
//! bills, by recursion over the chosen hyperedges. And the refusals of the calls, in the order of the
//! specification.

use crate::model::*;

pub fn solve(measure: u64, table: &Table) -> Labelling {
    let weights = best_weights(measure, table);
    let tight = tight_edges(measure, table, &weights);
    let depths = least_depths(table, &tight);
    let mut labelling = Labelling::unmade(table.n);
    // From the highest down, so that the lowest of the fitting hyperedges stays.
    for &edge in tight.iter().rev() {
        let head = table.heads[edge] as usize;
        if let (Some(weight), Some(depth)) = (weights[head], depths[head]) {
            if depth_by(table, edge, &depths) == Some(depth) {
                labelling.set(head, Label { weight, depth, edge: edge as u64, pieces: 0 });
            }
        }
    }
    labelling.pieces = piece_counts(table, &labelling);
    labelling
}

/// How many hyperedges without a tail each vertex's chosen derivation has, by recursion over the
/// chosen hyperedges in 128 bits, and capped at the end; 0 where there is none.
pub fn piece_counts(table: &Table, labels: &Labelling) -> Vec<u64> {
    let mut known = vec![None; table.n as usize];
    let cap = u128::from(MOST_PIECES);
    (0..table.n).map(|v| pieces_of(table, labels, v, &mut known).min(cap) as u64).collect()
}

/// A count above the type's greatest number stays there; all others are exact, since a sum only grows.
fn pieces_of(table: &Table, labels: &Labelling, vertex: u64, known: &mut [Option<u128>]) -> u128 {
    let place = vertex as usize;
    if labels.depths[place] == 0 {
        return 0;
    }
    if let Some(count) = known[place] {
        return count;
    }
    let tail = table.tail(labels.edges[place] as usize);
    let mut count = u128::from(tail.is_empty());
    for &part in tail {
        count = count.saturating_add(pieces_of(table, labels, part, known));
    }
    known[place] = Some(count);
    count
}

/// A hyperedge's weight from those of its tail; none while one of them has none.
pub fn weight_by(measure: u64, table: &Table, edge: usize, weights: &[Option<u64>]) -> Option<u64> {
    let own = u128::from(table.own[edge]);
    let (mut joined, mut weakest) = (0, own);
    for &vertex in table.tail(edge) {
        let weight = u128::from(weights[vertex as usize]?);
        joined = if measure == COST { joined + weight } else { joined.max(weight) };
        weakest = weakest.min(weight);
    }
    let total = if measure == GRADE { weakest } else { own + joined };
    let ceiling = u128::from(CEILING);
    Some(if total > ceiling { OVER } else { total as u64 })
}

/// Whether a number is there and less than the known one, which it then replaces.
fn lower(known: &mut Option<u64>, found: Option<u64>) -> bool {
    let less = found.is_some() && (known.is_none() || found < *known);
    if less {
        *known = found;
    }
    less
}

/// The same of a number that is greater.
fn higher(known: &mut Option<u64>, found: Option<u64>) -> bool {
    let more = found > *known;
    if more {
        *known = found;
    }
    more
}

/// After as many rounds as there are vertices nothing changes: a best derivation needs no vertex
/// twice on a path.
fn best_weights(measure: u64, table: &Table) -> Vec<Option<u64>> {
    let better = if measure == GRADE { higher } else { lower };
    let mut best: Vec<Option<u64>> = vec![None; table.n as usize];
    loop {
        let mut changed = false;
        for edge in (0..table.edges()).filter(|&edge| table.is_live(edge)) {
            let weight = weight_by(measure, table, edge, &best);
            changed |= better(&mut best[table.heads[edge] as usize], weight);
        }
        if !changed {
            return best;
        }
    }
}

/// The live hyperedges that give their head its best weight, ascending.
pub fn tight_edges(measure: u64, table: &Table, weights: &[Option<u64>]) -> Vec<usize> {
    let is_tight = |edge: &usize| {
        let weight = weight_by(measure, table, *edge, weights);
        table.is_live(*edge) && weight.is_some() && weight == weights[table.heads[*edge] as usize]
    };
    (0..table.edges()).filter(is_tight).collect()
}

fn depth_by(table: &Table, edge: usize, depths: &[Option<u64>]) -> Option<u64> {
    let mut deepest = 0;
    for &vertex in table.tail(edge) {
        deepest = deepest.max(depths[vertex as usize]?);
    }
    Some(deepest + 1)
}

fn least_depths(table: &Table, tight: &[usize]) -> Vec<Option<u64>> {
    let mut least: Vec<Option<u64>> = vec![None; table.n as usize];
    loop {
        let mut changed = false;
        for &edge in tight {
            let depth = depth_by(table, edge, &least);
            changed |= lower(&mut least[table.heads[edge] as usize], depth);
        }
        if !changed {
            return least;
        }
    }
}

/// A refusal as the calls return it.
pub fn refusal(number: u64, place: u64) -> u64 {
    number * 4_294_967_296 + place
}

/// What checking the table must return: 0, or the first of the refusals 1 to 6 and 21.
pub fn table_result(table: &Table) -> u64 {
    let edges = table.heads.len();
    if table.n > MOST_VERTICES {
        return refusal(1, 0);
    }
    let agree =
        table.own.len() == edges && table.strikes.len() == edges && table.spans.len() == 2 * edges;
    if !agree || edges > MOST_EDGES || table.tails.len() > MOST_TAILS {
        return refusal(2, 0);
    }
    let mut end = 0;
    for edge in 0..edges {
        let offset = u128::from(table.spans[2 * edge]);
        let length = u128::from(table.spans[2 * edge + 1]);
        if let Some(number) = edge_fault(table, edge, end) {
            return refusal(number, edge as u64);
        }
        end = offset + length;
    }
    0
}

/// The first of the refusals 3, 4, 21, 5 and 6 that a hyperedge meets, where the span before ends at
/// `end`.
fn edge_fault(table: &Table, edge: usize, end: u128) -> Option<u64> {
    if table.heads[edge] >= table.n {
        return Some(3);
    }
    if table.own[edge] > GREATEST {
        return Some(4);
    }
    if !MARKS.contains(&table.strikes[edge]) {
        return Some(21);
    }
    // Wider than the columns' numbers, so that no sum can wrap.
    let offset = u128::from(table.spans[2 * edge]);
    let length = u128::from(table.spans[2 * edge + 1]);
    let last = table.tails.len() as u128;
    if offset < end || length > LONGEST_TAIL as u128 || offset + length > last {
        return Some(5);
    }
    let outside = table.tail(edge).iter().any(|&vertex| vertex >= table.n);
    outside.then_some(6)
}

/// What a call with a measure and answer columns must return before it looks at the answers.
pub fn call_result(measure: u64, table: &Table, answers: &Labelling) -> u64 {
    if !MEASURES.contains(&measure) {
        return refusal(16, 0);
    }
    let result = table_result(table);
    if result != 0 {
        return result;
    }
    let fits = answers.lengths().iter().all(|&length| length as u64 == table.n);
    if fits {
        0
    } else {
        refusal(7, 0)
    }
}

/// How many hyperedges the bill of each vertex has; 0 for an unmade one. Counted from the shallow
/// vertices up and not along the bill, which may be longer than any number of 128 bits.
pub fn bill_lengths(table: &Table, right: &Labelling) -> Vec<u128> {
    let mut order: Vec<u64> = (0..table.n).filter(|&v| right.label(v).depth > 0).collect();
    order.sort_by_key(|&vertex| right.label(vertex).depth);
    let mut lengths = vec![0u128; table.n as usize];
    for vertex in order {
        let below = table.tail(right.label(vertex).edge as usize).iter();
        let parts = below.map(|&part| lengths[part as usize]);
        lengths[vertex as usize] = parts.fold(1, u128::saturating_add);
    }
    lengths
}

/// The bill of a made vertex: its hyperedge, then the bill of each vertex of the tail, in order.
pub fn bill_of(table: &Table, right: &Labelling, vertex: u64) -> Vec<u64> {
    let edge = right.label(vertex).edge;
    let mut bill = vec![edge];
    for &part in table.tail(edge as usize) {
        bill.extend(bill_of(table, right, part));
    }
    bill
}

/// What printing a bill must return, and the room as it must leave it.
pub fn bill_outcome(
    measure: u64,
    table: &Table,
    answers: &Labelling,
    part: u64,
    room: &[u64],
) -> (u64, Vec<u64>) {
    let refused = |number: u64| (refusal(number, 0), room.to_vec());
    let result = call_result(measure, table, answers);
    if result != 0 {
        return (result, room.to_vec());
    }
    if part >= table.n {
        return refused(11);
    }
    if *answers != solve(measure, table) {
        return refused(8);
    }
    if answers.label(part).depth == 0 {
        return refused(12);
    }
    if bill_lengths(table, answers)[part as usize] > room.len() as u128 {
        return refused(13);
    }
    let mut left = room.to_vec();
    let bill = bill_of(table, answers, part);
    left[..bill.len()].copy_from_slice(&bill);
    (bill.len() as u64, left)
}

/// What repricing, striking or restoring must return: what any call does, then 9, 20, 10 and 8.
pub fn change_result(measure: u64, table: &Table, answers: &Labelling, change: Change) -> u64 {
    let result = call_result(measure, table, answers);
    if result != 0 {
        return result;
    }
    let edge = usize::try_from(change.edge()).ok().filter(|&edge| edge < table.edges());
    match (edge.map(|edge| table.is_live(edge)), change) {
        (None, _) => return refusal(9, 0),
        (Some(true), Change::Restore(_)) => return refusal(20, 0),
        (Some(false), Change::Reprice(..) | Change::Strike(_)) => return refusal(9, 0),
        _ => {}
    }
    if matches!(change, Change::Reprice(_, own) if own > GREATEST) {
        return refusal(10, 0);
    }
    if *answers == solve(measure, table) {
        0
    } else {
        refusal(8, 0)
    }
}

/// The table as an accepted change leaves it.
pub fn changed(table: &Table, change: Change) -> Table {
    let mut table = table.clone();
    let edge = change.edge() as usize;
    match change {
        Change::Reprice(_, own) => table.own[edge] = own,
        Change::Strike(_) => table.strikes[edge] = STRUCK,
        Change::Restore(_) => table.strikes[edge] = STANDS,
    }
    table
}

/// How often a hyperedge stands in each vertex's chosen derivation, 0 where there is none. A count
/// above the type's greatest number stays there; all others are exact, since a sum only grows.
pub fn counts(table: &Table, labels: &Labelling, edge: usize) -> Vec<u128> {
    let mut counts = vec![0; table.n as usize];
    let mut made: Vec<usize> = (0..counts.len()).collect();
    made.retain(|&vertex| labels.depths[vertex] > 0);
    // What a chosen hyperedge needs is less deep, so it is counted before.
    made.sort_by_key(|&vertex| labels.depths[vertex]);
    for vertex in made {
        let chosen = labels.edges[vertex] as usize;
        let below = table.tail(chosen).iter().map(|&needed| counts[needed as usize]);
        counts[vertex] = below.fold(u128::from(chosen == edge), u128::saturating_add);
    }
    counts
}
