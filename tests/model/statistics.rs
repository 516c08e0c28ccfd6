//! The mean and the variance of a sample, by another way than the library's: over pairs of results,
//! in 128 bits, with the greatest common divisor found by trial.

use crate::model::solver::refusal;

pub const MOST_RESULTS: usize = 1_000;
pub const GREATEST_RESULT: u64 = 1_000_000;

/// What summarizing must return, and on acceptance the four numbers.
pub fn summarized(results: &[u64]) -> (u64, Option<[u64; 4]>) {
    if results.is_empty() || results.len() > MOST_RESULTS {
        return (refusal(22, 0), None);
    }
    if let Some(place) = results.iter().position(|&result| result > GREATEST_RESULT) {
        return (refusal(23, place as u64), None);
    }
    let count = results.len() as u128;
    let sum = results.iter().map(|&result| u128::from(result)).sum();
    let [mean, over] = reduced(sum, count);
    let [variance, below] = reduced(spread(results), count * count);
    (0, Some([mean, over, variance, below]))
}

/// The squares of the differences of all pairs, added up.
fn spread(results: &[u64]) -> u128 {
    let mut sum = 0;
    for (place, first) in results.iter().enumerate() {
        for second in &results[..place] {
            let difference = u128::from(first.abs_diff(*second));
            sum += difference * difference;
        }
    }
    sum
}

fn reduced(numerator: u128, denominator: u128) -> [u64; 2] {
    let small = (1..).take_while(|d| d * d <= denominator).filter(|d| denominator % d == 0);
    let common = small.flat_map(|d| [d, denominator / d]).filter(|d| numerator % d == 0).max();
    let divisor = common.unwrap_or(1);
    [numerator / divisor, denominator / divisor].map(|number| number as u64)
}
