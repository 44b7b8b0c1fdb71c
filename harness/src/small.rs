//! Small networks and trees, all of them.

use crate::case::{Case, Network, Tree};
use crate::compare::Comparison;
use crate::large;
use crate::networks::SHAPES;
use crate::numbers::Numbers;
use crate::trees::{all_lists, of_shape, shapes};

/// The indices of a subset, given by its bits.
fn subset(bits: usize) -> Vec<u16> {
    (0..16).filter(|i| bits >> i & 1 == 1).collect()
}

/// Every network of so many leaves over the given weights.
fn all_networks(leaf_count: usize, weights: &[u8]) -> impl Iterator<Item = Network> + '_ {
    let subsets = 1 << weights.len();
    (0..usize::pow(subsets, leaf_count as u32 + 1)).map(move |k| {
        let mut rest = k;
        let mut digit = || {
            let d = rest % subsets;
            rest /= subsets;
            subset(d)
        };
        let leaves = (0..leaf_count).map(|_| digit()).collect();
        Network { weights: weights.to_vec(), leaves, outputs: digit() }
    })
}

/// Every valid tree over so many leaves, by a test of leaf sets: each node joins two disjoint sets, and the root has all.
fn all_valid(leaf_count: usize) -> Vec<Tree> {
    let end = 2 * leaf_count.max(1) - 1;
    all_lists(leaf_count, end as u16).filter(|tree| joins_all(tree, leaf_count)).collect()
}

fn joins_all(tree: &Tree, leaf_count: usize) -> bool {
    let mut sets: Vec<usize> = (0..leaf_count).map(|l| 1 << l).collect();
    sets.resize(leaf_count + tree.len(), 0);
    // children may stand after their parents: as many rounds as nodes make every set
    for _ in 0..tree.len() {
        for (j, &[a, b]) in tree.iter().enumerate() {
            let (a, b) = (sets[a as usize], sets[b as usize]);
            if a & b == 0 && a > 0 && b > 0 {
                sets[leaf_count + j] = a | b;
            }
        }
    }
    let inner = &sets[leaf_count..];
    inner.iter().all(|&set| set > 0) && inner.last().is_none_or(|&set| set + 1 == 1 << leaf_count)
}

/// The flags of a subset: none, or a list that ends with its last set flag.
fn flags(bits: usize) -> Option<Vec<bool>> {
    let count = (usize::BITS - bits.leading_zeros()) as usize;
    (bits > 0).then(|| (0..count).map(|i| bits >> i & 1 == 1).collect())
}

/// Every network with every valid tree and, if asked, every set of flags.
fn networks(comparison: &mut Comparison, leaf_count: usize, weights: &[u8], with_flags: bool) {
    let trees = all_valid(leaf_count);
    let sets = if with_flags { 1 << weights.len() } else { 1 };
    for network in all_networks(leaf_count, weights) {
        for tree in &trees {
            for bits in 0..sets {
                let case = Case { network: network.clone(), tree: Some(tree.clone()), flags: flags(bits) };
                comparison.run(&case);
            }
        }
    }
    comparison.tally.tell(&format!("{leaf_count} leaves, weights {weights:?}"));
}

/// Every list of children, valid or not, over one network.
fn lists(comparison: &mut Comparison, leaf_count: usize, end: u16) {
    let leaves = (0..leaf_count as u16).map(|i| vec![i, i + 1]).collect();
    let network = Network { weights: vec![1; leaf_count + 1], leaves, outputs: vec![0] };
    for tree in all_lists(leaf_count, end) {
        comparison.run(&Case { network: network.clone(), tree: Some(tree), flags: None });
    }
    comparison.tally.tell(&format!("{leaf_count} leaves, every list"));
}

/// Every tree of so many leaves, up to the order of children and the numbers of nodes, each over a random network.
fn every_shape(comparison: &mut Comparison, numbers: &mut Numbers, leaf_count: usize) {
    for k in 0..shapes(leaf_count) {
        let mut case = large::case_of(numbers, SHAPES[k % SHAPES.len()], leaf_count);
        case.tree = Some(of_shape(numbers, leaf_count, k));
        comparison.run(&case);
    }
    comparison.tally.tell(&format!("{leaf_count} leaves, every shape"));
}

/// Networks without a tree: none is due up to one leaf.
fn without_tree(comparison: &mut Comparison) {
    for leaf_count in 0..4 {
        for network in all_networks(leaf_count, &[3]) {
            comparison.run(&Case { network, tree: None, flags: Some(vec![true]) });
        }
    }
    comparison.tally.tell("no tree");
}

pub fn run(comparison: &mut Comparison, seed: u64) {
    for leaf_count in 0..4 {
        for weights in [&[][..], &[2], &[1, 2], &[0, 8]] {
            networks(comparison, leaf_count, weights, true);
        }
    }
    networks(comparison, 3, &[1, 3, 2], false);
    networks(comparison, 4, &[2], true);
    lists(comparison, 2, 6);
    lists(comparison, 3, 8);
    lists(comparison, 4, 8);
    let mut numbers = Numbers::new(seed);
    for leaf_count in 5..9 {
        every_shape(comparison, &mut numbers, leaf_count);
    }
    without_tree(comparison);
}

#[cfg(test)]
mod tests {
    use super::*;

    #[test]
    fn counts_of_trees() {
        // shapes, times orders of the children, times numberings of the nodes below the root
        let expected = [1, 1, 2, 3 * 4, 15 * 8 * 2];
        for (leaf_count, &count) in expected.iter().enumerate() {
            assert_eq!(all_valid(leaf_count).len(), count, "{leaf_count} leaves");
        }
    }
}
