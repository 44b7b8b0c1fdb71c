//! The scope document's row of three tables, and choices that are close, as the second reading, the port and the Rust have them.

use super::call;
use super::model::{is_close, slice, Sliced, Target};
use crate::case::{Case, Network, Tree};
use crate::lent::Given;
use crate::{port, rust};

fn both(network: &Network, tree: &Tree, target: Target) -> Result<Sliced, u32> {
    let read = slice(network, tree, target);
    if port::AT_HAND {
        assert_eq!(call::answer(&Given::new(network), tree, target), Ok(read.clone()));
    }
    read
}

#[test]
fn a_row_of_three_tables() {
    let network = Network { weights: vec![1, 2, 1], leaves: vec![vec![0, 1], vec![1, 2], vec![2]], outputs: vec![0] };
    let tree = vec![[0, 1], [3, 2]];
    let as_is = Sliced { tree: tree.clone(), flags: vec![false; 3], rebuilt: 0, tried: 0 };
    assert_eq!(both(&network, &tree, Target { bits: 3, improving: true }), Ok(as_is.clone()));
    let flags = vec![false, true, true];
    assert_eq!(both(&network, &tree, Target { bits: 2, improving: false }), Ok(Sliced { flags: flags.clone(), ..as_is }));
    let improved = Sliced { tree: vec![[2, 1], [3, 0]], flags, rebuilt: 1, tried: 12 };
    assert_eq!(both(&network, &tree, Target { bits: 2, improving: true }), Ok(improved));
}

/// The flags of so many indices, of which one is flagged.
fn flags(count: usize, i: usize) -> Vec<bool> {
    (0..count).map(|j| j == i).collect()
}

/// Here index `i`, the Rust index `j`; those that are close.
fn close(network: &Network, tree: &Tree, bits: u16, i: usize, j: usize) -> Vec<usize> {
    let (target, count) = (Target { bits, improving: false }, network.weights.len());
    assert_eq!(both(network, tree, target).unwrap().flags, flags(count, i));
    let case = Case { network: network.clone(), tree: Some(tree.clone()), flags: None };
    let plan = (tree.clone(), flags(count, j));
    assert!(rust::slice(&case, bits, false).is_none_or(|rust| rust == plan));
    let close = |k: usize| is_close(network, tree, target, &(tree.clone(), flags(count, k)));
    (0..count).filter(|&k| close(k)).collect()
}

#[test]
fn a_cost_within_the_tolerance() {
    let all: Vec<u16> = (0..7).collect();
    let network = Network { weights: vec![8, 5, 8, 4, 4, 7, 8], leaves: vec![all.clone(), all, vec![]], outputs: vec![] };
    assert_eq!(close(&network, &vec![[1, 0], [3, 2]], 40, 3, 1), [0, 1, 2, 3, 4, 5, 6]);
}

#[test]
fn equal_costs_that_are_rounded() {
    let leaves = vec![vec![0, 2], vec![], vec![0, 1], vec![3, 4], vec![1, 2], vec![1, 4]];
    let network = Network { weights: vec![8; 5], leaves, outputs: vec![] };
    assert_eq!(close(&network, &vec![[0, 1], [6, 2], [7, 3], [8, 4], [9, 5]], 23, 1, 2), [1, 2]);
}
