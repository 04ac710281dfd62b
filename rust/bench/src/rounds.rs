//! Rounds in which every contestant has its turn with every set of heads.

use crate::contestants::{Contestant, Function, Slot};
use crate::heads::{HeadSet, HEADS};
use std::hint::black_box;
use std::time::Instant;

/// How many headers there is room for: more than any head has.
const SLOTS: usize = 64;

/// How many bytes a contestant reads in one turn: enough that the clock's own time is nothing.
const TURN: usize = 100_000;

/// One in so many rounds is run before the first that counts.
const WARM_UP: usize = 20;

/// Nanoseconds for one head: of each set, of each contestant, in each round.
pub type Samples = Vec<Vec<Vec<f64>>>;

/// What is done in how many rounds.
pub fn line(rounds: usize, sets: &[HeadSet]) -> String {
    format!(
        "{rounds} rounds, in each of which every contestant has a turn with each of {} sets of {HEADS} heads, in an order that changes; \
         every call has the same {SLOTS} slots, which nobody initialises and each call uses again",
        sets.len()
    )
}

/// Measures all in turns; panics if a contestant does not read each head to its end.
pub fn measure(rounds: usize, sets: &[HeadSet], contestants: &[Contestant]) -> Samples {
    let mut slots = [Slot::uninit(); SLOTS];
    for set in sets {
        for contestant in contestants {
            assert_all_are_read(set, contestant, &mut slots);
        }
    }
    for round in 0..rounds.div_ceil(WARM_UP) {
        play(round, sets, contestants, &mut slots, |_, _, _| {});
    }
    let mut samples = vec![vec![Vec::with_capacity(rounds); contestants.len()]; sets.len()];
    for round in 0..rounds {
        let keep = |set: usize, contestant: usize, time| samples[set][contestant].push(time);
        play(round, sets, contestants, &mut slots, keep);
    }
    samples
}

fn assert_all_are_read(set: &HeadSet, contestant: &Contestant, slots: &mut [Slot]) {
    let function = contestant.function(set.kind);
    for head in &set.heads {
        let end = read(function, head, slots);
        let (name, text) = (&contestant.name, head.escape_ascii());
        assert_eq!(end, head.len(), "{name} does not read all of {text}");
    }
}

/// One round; `keep` is told the set, the contestant, and the nanoseconds that a head took.
fn play(
    round: usize,
    sets: &[HeadSet],
    contestants: &[Contestant],
    slots: &mut [Slot],
    mut keep: impl FnMut(usize, usize, f64),
) {
    for (number, set) in sets.iter().enumerate() {
        for place in 0..contestants.len() {
            let contestant = turn(round + number, place, contestants.len());
            let function = contestants[contestant].function(set.kind);
            keep(number, contestant, time(function, set, slots));
        }
    }
}

/// Whose turn it is: the order begins with another each round, and runs backwards in every other one,
/// so that nobody always follows the same.
fn turn(round: usize, place: usize, contestants: usize) -> usize {
    let turn = (round / 2 + place) % contestants;
    match round % 2 {
        0 => turn,
        _ => contestants - 1 - turn,
    }
}

fn time(function: Function, set: &HeadSet, slots: &mut [Slot]) -> f64 {
    let laps = TURN / (set.length * set.heads.len()) + 1;
    let start = Instant::now();
    for _ in 0..laps {
        for head in &set.heads {
            black_box(read(function, head, slots));
        }
    }
    start.elapsed().as_nanos() as f64 / (laps * set.heads.len()) as f64
}

#[inline(always)]
fn read(function: Function, head: &[u8], slots: &mut [Slot]) -> usize {
    let head = black_box(head);
    // SAFETY: both pointers are to as many elements as the numbers behind them say.
    unsafe { function(head.as_ptr(), head.len(), slots.as_mut_ptr(), slots.len()) }
}

#[cfg(test)]
mod tests {
    use super::*;

    #[test]
    fn everyone_has_a_turn_and_is_first_as_often() {
        for contestants in 1..5 {
            let mut first = vec![0; contestants];
            for round in 0..2 * contestants {
                let mut order: Vec<usize> = (0..contestants)
                    .map(|place| turn(round, place, contestants))
                    .collect();
                first[order[0]] += 1;
                order.sort_unstable();
                assert!(order.into_iter().eq(0..contestants));
            }
            assert_eq!(first, vec![2; contestants]);
        }
    }
}
