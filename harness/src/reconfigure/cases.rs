//! The networks, trees and questions that improvement is run on.

use super::model::{self, Ask};
use super::{Comparison, Question};
use crate::case::{Case, Network, Tree, LEAVES};
use crate::networks::{network, practice_pedigree, Shape, SHAPES};
use crate::numbers::Numbers;
use crate::{rust, trees};

/// Splits that a question may take on each side, most of the time and now and then.
const SPLITS: [usize; 2] = [20_000, 1_000_000];

/// Takes out each non-output index that just one leaf names.
fn mend(network: &mut Network) {
    for i in 0..network.weights.len() as u16 {
        let named = network.leaves.iter().filter(|leaf| leaf.contains(&i)).count();
        if named == 1 && !network.outputs.contains(&i) {
            network.leaves.iter_mut().for_each(|leaf| leaf.retain(|&j| j != i));
        }
    }
}

/// A comb over the leaves in any order.
fn comb(numbers: &mut Numbers, leaf_count: usize) -> Tree {
    let mut leaves: Vec<u16> = (0..leaf_count as u16).collect();
    numbers.shuffle(&mut leaves);
    (1..leaf_count)
        .map(|j| [if j == 1 { leaves[0] } else { (leaf_count + j - 2) as u16 }, leaves[j]])
        .map(|[a, b]| if numbers.chance(1, 2) { [a, b] } else { [b, a] })
        .collect()
}

/// A random tree, greedy's, or a comb.
fn start(numbers: &mut Numbers, network: &Network) -> Tree {
    let random = |numbers: &mut Numbers| trees::valid(numbers, network.leaves.len());
    match numbers.below(4) {
        0 => comb(numbers, network.leaves.len()),
        1 if !network.leaves.is_empty() => {
            rust::greedy(&Case { network: network.clone(), tree: None, flags: None }).unwrap_or_else(|| random(numbers))
        }
        _ => random(numbers),
    }
}

fn flags(numbers: &mut Numbers, index_count: usize) -> Vec<bool> {
    if numbers.chance(1, 2) {
        return Vec::new();
    }
    let (count, rate) = (numbers.below(index_count + 1), 1 + numbers.below(8));
    (0..count).map(|_| numbers.chance(1, rate)).collect()
}

/// None, about the widest table's bits, tight, or any.
fn limit(numbers: &mut Numbers, widest: u32) -> Option<u32> {
    match numbers.below(6) {
        0 | 1 => None,
        2 => Some(widest),
        3 => Some((widest + numbers.below(3) as u32).saturating_sub(1)),
        4 => Some(numbers.below(widest as usize + 1) as u32),
        _ => Some(numbers.below(60) as u32),
    }
}

/// k of 0 to 14 and 0 to 4 passes, such that no more than so many splits are tried.
fn ask(numbers: &mut Numbers, leaf_count: usize) -> Ask {
    let most = SPLITS[numbers.chance(1, 200) as usize];
    let passes = numbers.below(5);
    let cost = |k: usize| {
        let m = k.clamp(3, 12).min(leaf_count) as u32;
        3usize.pow(m) / 2 * leaf_count * passes
    };
    let mut k = numbers.below(15);
    while k > 3 && cost(k) > most {
        k -= 1;
    }
    Ask { k, passes, limit: None }
}

/// A question on a network: its tree, flags, k, passes and limit. Most totals are brought below 2^53 by lighter weights.
fn question(numbers: &mut Numbers, mut network: Network) -> Question {
    if !numbers.chance(1, 20) {
        mend(&mut network);
    }
    let tree = start(numbers, &network);
    let flags = flags(numbers, network.weights.len());
    if !numbers.chance(1, 20) {
        while model::price(&network, &tree, &flags).0.is_none() {
            network.weights.iter_mut().for_each(|weight| *weight /= 2);
            if network.weights.iter().all(|&weight| weight <= 1) {
                let rate = 2 + numbers.below(8);
                network.weights.iter_mut().for_each(|weight| *weight &= numbers.chance(1, rate) as u8);
            }
        }
    }
    let limit = limit(numbers, model::price(&network, &tree, &flags).1);
    let ask = Ask { limit, ..ask(numbers, network.leaves.len()) };
    Question { network, tree, flags, ask }
}

fn leaf_count(numbers: &mut Numbers) -> usize {
    match numbers.below(20) {
        0..=9 => numbers.below(9),
        10..=17 => 9 + numbers.below(16),
        18 => 25 + numbers.below(40),
        _ => LEAVES - numbers.below(64),
    }
}

/// A random question on a network of one shape.
pub fn random(numbers: &mut Numbers, shape: Shape) -> Question {
    let leaf_count = leaf_count(numbers);
    let network = network(numbers, shape, leaf_count);
    question(numbers, network)
}

/// A random question on a practice pedigree, some of them cut, half of them with other weights.
pub fn pedigree(numbers: &mut Numbers, k: usize) -> Question {
    let mut network = practice_pedigree(2 + k % 63, 1 + k as u64);
    if k % 2 == 1 {
        network.weights.iter_mut().for_each(|weight| *weight = numbers.below(9) as u8);
    }
    if k % 3 == 2 {
        let most = network.leaves.len();
        network.leaves.truncate(1 + numbers.below(most));
    }
    question(numbers, network)
}

/// One pass with no limit on a practice pedigree of 2k tables, so that frontiers have k members.
pub fn wide(numbers: &mut Numbers, k: usize) -> Question {
    let ask = Ask { k, passes: 1, limit: None };
    Question { ask, ..question(numbers, practice_pedigree(k, k as u64)) }
}

/// So many questions, one in eight on a practice pedigree.
pub fn run(comparison: &mut Comparison, count: usize, seed: u64) {
    let mut numbers = Numbers::new(seed);
    for (k, &shape) in SHAPES.iter().enumerate() {
        for _ in 0..(count * 7 / 8 + k) / SHAPES.len() {
            comparison.run(&random(&mut numbers, shape));
        }
        comparison.tally.tell(&format!("{shape:?}, random"));
    }
    for k in 0..count.div_ceil(8) {
        comparison.run(&pedigree(&mut numbers, k));
    }
    comparison.tally.tell("practice pedigrees");
}
