//! New heads among those that mutation makes of old ones.

use crate::input::{write, SETTINGS};
use answers::bits::combinations;
use compare::heads::{lenient_shapes, make, shapes, Head, Shape};
use compare::{Case, Random};

/// All shapes, with settings and without.
fn all_shapes() -> Vec<Shape> {
    [shapes(), lenient_shapes()].concat()
}

/// Heads of every shape up to this length, one each, with what is left open chosen at random; and the
/// settings that each needs.
pub fn heads(longest: usize, random: &mut Random) -> Vec<(Head, u32)> {
    let mut heads = Vec::new();
    for shape in all_shapes() {
        if shape.length <= longest {
            heads.push((make(&shape, random), shape.settings));
        }
    }
    heads.retain(|(head, _)| head.bytes.len() <= longest);
    heads
}

/// A row of bytes that stands for a call on a new head, or for none if the shape chosen is too long.
pub fn fresh(longest: usize, random: &mut Random) -> Option<Vec<u8>> {
    let shape = random.choose(&all_shapes());
    if shape.length > longest {
        return None;
    }
    let head = make(&shape, random);
    let few = head.headers.saturating_sub(1);
    let random_settings = random.choose(&combinations(SETTINGS));
    let row = write(&Case {
        call: head.call,
        slots: random.choose(&[0, few, head.headers, head.headers + 1]),
        remainder: random.below(4),
        settings: random.choose(&[shape.settings, random_settings]),
        input: &head.bytes,
    });
    (row.len() <= longest).then_some(row)
}

#[cfg(test)]
mod tests {
    use super::*;

    #[test]
    fn new_heads_are_no_longer_than_asked_for() {
        let mut random = Random::new(1);
        for longest in [0, 60, 4_096] {
            let rows = (0..500).filter_map(|_| fresh(longest, &mut random));
            let rows: Vec<Vec<u8>> = rows.collect();
            assert_eq!(rows.is_empty(), longest == 0);
            assert!(rows.iter().all(|row| row.len() <= longest));
        }
    }
}
