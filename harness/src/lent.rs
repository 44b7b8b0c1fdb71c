//! Lists that are lent to the port: a network's, and what must hold of those that a call may write.

use crate::case::{Network, Tree, LEGS};

/// What stands in the lent lists before a call.
pub const MARK: u16 = 0xa5a5;
pub const WORD_MARK: u64 = 0xa5a5_a5a5_a5a5_a5a5;
/// Places and words that are lent beyond what is stated.
pub const BEYOND: usize = 3;

/// A network as lists that are lent.
#[derive(Clone, Default)]
pub struct Given {
    pub weights: Vec<u8>,
    pub leg_counts: Vec<u8>,
    /// `LEGS` places a leaf.
    pub legs: Vec<u16>,
    pub outputs: Vec<u16>,
}

impl Given {
    pub fn new(network: &Network) -> Self {
        let mut legs = vec![0; network.leaves.len() * LEGS];
        for (row, leaf) in legs.chunks_mut(LEGS).zip(&network.leaves) {
            row[..leaf.len()].copy_from_slice(leaf);
        }
        Self {
            weights: network.weights.clone(),
            leg_counts: network.leaves.iter().map(|leaf| leaf.len() as u8).collect(),
            legs,
            outputs: network.outputs.clone(),
        }
    }

    /// Places of the tree's list that are stated.
    pub fn places(&self) -> usize {
        2 * self.leg_counts.len().saturating_sub(1)
    }
}

/// The children of each node, two places a node.
pub fn tree_of(kids: &[u16]) -> Tree {
    kids.chunks(2).map(|pair| [pair[0], pair[1]]).collect()
}

/// Whether the workspace is as it must be after a call: the stated words 0, or untouched after refusals 3 to 7; words past them untouched.
pub fn words_kept(refusal: u32, stated: usize, words: &[u64]) -> Result<(), String> {
    let stated = stated.min(words.len());
    let left = if (3..8).contains(&refusal) { WORD_MARK } else { 0 };
    if words[..stated].iter().any(|&x| x != left) || words[stated..].iter().any(|&x| x != WORD_MARK) {
        return Err(format!("number {refusal}, and the words are not {left:x} up to the stated length and marks past it"));
    }
    Ok(())
}

/// Whether a list is as it was from a place on.
pub fn marked_from<T: PartialEq>(refusal: u32, what: &str, list: &[T], from: usize, mark: T) -> Result<(), String> {
    if list[from..].iter().any(|x| *x != mark) {
        return Err(format!("number {refusal}, and {what} touched where it must not be"));
    }
    Ok(())
}
