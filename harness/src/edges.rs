//! Totals at the edge of 2^53, and the largest bits.

use crate::case::{Case, Network};
use crate::compare::Comparison;

/// A tree that joins the leaves one after the other.
fn comb(leaf_count: usize) -> Vec<[u16; 2]> {
    (0..leaf_count.saturating_sub(1)).map(|j| [if j == 0 { 0 } else { (leaf_count + j - 1) as u16 }, j as u16 + 1]).collect()
}

fn with_comb(network: Network) -> Case {
    Case { tree: Some(comb(network.leaves.len())), network, flags: None }
}

/// Two leaves with no common index, all outputs, of so many bits together; then so many empty leaves.
fn outer_product(bits: usize, empty: usize) -> Case {
    let mut weights = vec![8; bits / 8];
    weights.push((bits % 8) as u8);
    let outputs: Vec<u16> = (0..weights.len() as u16).collect();
    let (left, right) = outputs.iter().partition(|&i| i % 2 == 0);
    let mut leaves = vec![left, right];
    leaves.resize(2 + empty, Vec::new());
    with_comb(Network { weights, leaves, outputs })
}

/// Steps of 52, 51, .., 1 work bits, which sum to 2^53 - 2; then so many steps of none.
fn halving(empty: usize) -> Case {
    let mut leaves: Vec<Vec<u16>> = vec![(0..26).collect(), (26..52).collect()];
    leaves[0].push(51);
    leaves.extend((0..51).rev().map(|i| vec![i]));
    leaves.resize(leaves.len() + empty, Vec::new());
    with_comb(Network { weights: vec![1; 52], leaves, outputs: Vec::new() })
}

/// Every index of weight 8 in the outcome of the last step but one.
fn widest() -> Case {
    let leaves = (0..128).map(|i| vec![2 * i as u16, 2 * i as u16 + 1, (2 * i as u16 + 2) % 256]).collect();
    with_comb(Network { weights: vec![8; 256], leaves, outputs: (0..32).collect() })
}

pub fn cases() -> Vec<Case> {
    let products = (0..=56).flat_map(|bits| (0..4).map(move |empty| outer_product(bits, empty)));
    products.chain((0..5).map(halving)).chain([widest()]).collect()
}

pub fn run(comparison: &mut Comparison) {
    for case in cases() {
        comparison.run(&case);
    }
    comparison.tally.tell("edges of totals");
}

#[cfg(test)]
mod tests {
    use super::*;

    #[test]
    fn networks_are_accepted() {
        assert!(cases().iter().all(|case| case.network.is_accepted()));
    }
}
