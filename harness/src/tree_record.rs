//! A sample of the Rust's answers on trees alone, stored for the program `treeruns`, which needs no Rust.
//!
//! Its input: a 4-byte count; for each case a 4-byte length and so many bytes of a network file without a tree, then two trees, each a 4-byte
//! number of places and a byte a place; high bytes first. Its output, a line a case, of four parts:
//!
//!   valid, or refused 8                 the tree check of the first tree
//!   its nodes in step order, or refused 8
//!   same, or refused 8                  the first tree compared with itself
//!   same, different, or refused 8       the first tree compared with the second
//!
//! The first two are path.rs's `is_valid` and `post_order`. path.rs compares no trees: the sets of leaves below the nodes are made here.

use crate::case::{Case, Network, Tree};
use crate::numbers::Numbers;
use crate::rust::Validity;
use crate::{record, rust, trees};
use std::collections::BTreeSet;
use std::path::Path;
use std::{fs, io};

const SEED: u64 = 53;

/// The leaves below a node, one digit a leaf; the sets of the internal nodes are put into `sets`.
fn leaves_below(tree: &Tree, leaf_count: usize, node: u16, sets: &mut BTreeSet<u128>) -> u128 {
    let Some(j) = (node as usize).checked_sub(leaf_count) else {
        return 1 << node;
    };
    let set = tree[j].iter().fold(0, |set, &child| set | leaves_below(tree, leaf_count, child, sets));
    sets.insert(set);
    set
}

/// The sets of leaves below the internal nodes of a valid tree.
fn leaf_sets(tree: &Tree, leaf_count: usize) -> BTreeSet<u128> {
    let mut sets = BTreeSet::new();
    if !tree.is_empty() {
        leaves_below(tree, leaf_count, (leaf_count + tree.len() - 1) as u16, &mut sets);
    }
    sets
}

/// The second tree of a case: the first with its children swapped, a valid one at random, or one with a fault.
fn second(numbers: &mut Numbers, k: usize, tree: &Tree, leaf_count: usize) -> Tree {
    match k % 8 {
        0..=3 => tree.iter().map(|&[left, right]| [right, left]).collect(),
        7 if leaf_count > 1 => trees::broken(numbers, leaf_count),
        _ => trees::valid(numbers, leaf_count),
    }
}

fn is_valid(network: &Network, tree: &Tree) -> Option<bool> {
    let case = Case { network: network.clone(), tree: Some(tree.clone()), flags: None };
    Some(rust::answer(&case)?.validity == Validity::Valid)
}

/// The line of a case.
fn line(network: &Network, tree: &Tree, other: &Tree) -> Option<String> {
    let case = Case { network: network.clone(), tree: Some(tree.clone()), flags: None };
    let Some(cost) = rust::answer(&case)?.cost else {
        return Some("refused 8 refused 8 refused 8 refused 8".into());
    };
    let nodes: String = cost.steps.iter().map(|step| format!(" {}", step.node)).collect();
    let n = network.leaves.len();
    let compared = match is_valid(network, other)? {
        false => "refused 8",
        true if leaf_sets(tree, n) == leaf_sets(other, n) => "same",
        true => "different",
    };
    Some(format!("valid{nodes} same {compared}"))
}

fn put_tree(input: &mut Vec<u8>, tree: &Tree) {
    input.extend((2 * tree.len() as u32).to_be_bytes());
    input.extend(tree.as_flattened().iter().map(|&child| u8::try_from(child).expect("a number below 256")));
}

/// Writes `stdin` and `stdout` of the program.
pub fn run(folder: &Path) -> io::Result<()> {
    let mut numbers = Numbers::new(SEED);
    let cases = record::cases();
    let mut input = (cases.len() as u32).to_be_bytes().to_vec();
    let mut output = String::new();
    for (k, case) in cases.into_iter().enumerate() {
        let tree = case.tree.unwrap_or_default();
        let other = second(&mut numbers, k, &tree, case.network.leaves.len());
        let Some(line) = line(&case.network, &tree, &other) else {
            println!("{}", rust::MISSING);
            return Ok(());
        };
        // the network alone, its leaves without indices: trees go by their number
        let leaves = vec![Vec::new(); case.network.leaves.len()];
        let file = Case { network: Network { leaves, ..Network::default() }, tree: None, flags: None }.file();
        input.extend((file.len() as u32).to_be_bytes());
        input.extend(file);
        put_tree(&mut input, &tree);
        put_tree(&mut input, &other);
        output += &line;
        output.push('\n');
    }
    fs::create_dir_all(folder)?;
    fs::write(folder.join("stdin"), &input)?;
    fs::write(folder.join("stdout"), &output)?;
    println!("{} bytes of input, {} lines of output", input.len(), output.lines().count());
    Ok(())
}
