//! Random networks of 0 to 128 leaves.

use crate::case::{Case, LEAVES};
use crate::compare::Comparison;
use crate::networks::{network, Shape, SHAPES};
use crate::numbers::Numbers;
use crate::trees;

fn leaf_count(numbers: &mut Numbers) -> usize {
    match numbers.below(10) {
        0..=3 => numbers.below(9),
        4..=7 => 9 + numbers.below(32),
        8 => 41 + numbers.below(LEAVES - 40),
        _ => LEAVES - numbers.below(2),
    }
}

/// None, an empty list, a list that ends early, or one flag an index.
fn flags(numbers: &mut Numbers, index_count: usize) -> Option<Vec<bool>> {
    let count = match numbers.below(4) {
        0 => return None,
        1 => index_count,
        2 => numbers.below(index_count + 1),
        _ => index_count.min(4),
    };
    let rate = 1 + numbers.below(8);
    Some((0..count).map(|_| numbers.chance(1, rate)).collect())
}

/// A random case with a valid tree.
pub fn case(numbers: &mut Numbers, shape: Shape) -> Case {
    let leaf_count = leaf_count(numbers);
    // a dense network of many leaves is slow on both sides
    let leaf_count = if shape == Shape::Dense && numbers.chance(3, 4) { leaf_count % 24 } else { leaf_count };
    case_of(numbers, shape, leaf_count)
}

/// A random case of so many leaves with a valid tree.
pub fn case_of(numbers: &mut Numbers, shape: Shape, leaf_count: usize) -> Case {
    let network = network(numbers, shape, leaf_count);
    let flags = flags(numbers, network.weights.len());
    Case { tree: Some(trees::valid(numbers, leaf_count)), network, flags }
}

/// So many networks, each with a valid tree and with one that is likely broken.
pub fn run(comparison: &mut Comparison, count: usize, seed: u64) {
    let mut numbers = Numbers::new(seed);
    for (k, &shape) in SHAPES.iter().enumerate() {
        for _ in 0..(count + k) / SHAPES.len() {
            let mut case = case(&mut numbers, shape);
            comparison.run(&case);
            case.tree = Some(trees::broken(&mut numbers, case.network.leaves.len()));
            comparison.run(&case);
        }
        comparison.tally.tell(&format!("{shape:?}, random"));
    }
}
