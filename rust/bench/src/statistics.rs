//! What the rounds come to.

use crate::contestants::Contestant;
use crate::heads::HeadSet;
use crate::rounds::Samples;

/// The times of one contestant with one set of heads, in nanoseconds for one head.
pub struct Result {
    pub set: String,
    pub length: usize,
    pub contestant: String,
    pub least: f64,
    pub median: f64,
    /// The time divided by that of the first contestant in the same round.
    pub ratio: Quartiles,
}

/// A quarter of the numbers is below the first, half below the second, three quarters below the third.
pub struct Quartiles {
    pub first: f64,
    pub second: f64,
    pub third: f64,
}

/// A result for each set and each contestant, set by set.
pub fn results(sets: &[HeadSet], contestants: &[Contestant], samples: &Samples) -> Vec<Result> {
    let mut results = Vec::new();
    for (set, of_set) in sets.iter().zip(samples) {
        for (contestant, times) in contestants.iter().zip(of_set) {
            let ratios = times.iter().zip(&of_set[0]).map(|(time, base)| time / base);
            results.push(Result {
                set: set.name(),
                length: set.length,
                contestant: contestant.name.clone(),
                least: times.iter().copied().fold(f64::INFINITY, f64::min),
                median: quartiles(times.clone()).second,
                ratio: quartiles(ratios.collect()),
            });
        }
    }
    results
}

/// Of at least one number; none may be NaN.
fn quartiles(mut numbers: Vec<f64>) -> Quartiles {
    numbers.sort_unstable_by(f64::total_cmp);
    let at = |quarters: usize| numbers[(numbers.len() - 1) * quarters / 4];
    Quartiles {
        first: at(1),
        second: at(2),
        third: at(3),
    }
}

#[cfg(test)]
mod tests {
    use super::*;

    #[test]
    fn quartiles_of_a_row() {
        let numbers = (0..=100).rev().map(f64::from).collect();
        let found = quartiles(numbers);
        assert_eq!([found.first, found.second, found.third], [25.0, 50.0, 75.0]);
        let alone = quartiles(vec![3.0]);
        assert_eq!([alone.first, alone.second, alone.third], [3.0; 3]);
    }
}
