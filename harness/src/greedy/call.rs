//! The port's greedy on lists in memory.

use crate::case::Tree;
use crate::lent::{marked_from, tree_of, words_kept, Given, BEYOND, MARK, WORD_MARK};
use crate::port::loqshyber_greedy;

/// The stated workspace, in words.
pub const WORDS: usize = 4096;

/// The number of the refusal, or 0 and the children at the front of `tree`.
pub fn greedy(given: &Given, tree: &mut [u16], words: &mut [u64]) -> u32 {
    loqshyber_greedy(&given.weights, &given.leg_counts, &given.legs, &given.outputs, tree, words)
}

/// The call on marked lists of so many places and words. The tree's list must be untouched after a refusal, and else past the tree.
fn lend(given: &Given, places: usize, word_count: usize) -> Result<Result<Vec<u16>, u32>, String> {
    let mut tree = vec![MARK; places];
    let mut words = vec![WORD_MARK; word_count];
    let refusal = greedy(given, &mut tree, &mut words);
    let written = if refusal == 0 { given.places() } else { 0 };
    marked_from(refusal, "the tree's list is", &tree, written, MARK)?;
    words_kept(refusal, WORDS, &words)?;
    Ok(if refusal == 0 { Ok(tree[..given.places()].to_vec()) } else { Err(refusal) })
}

/// The port's answer on lists with some room to spare.
pub fn answer(given: &Given) -> Result<Result<Tree, u32>, String> {
    let kids = lend(given, given.places() + BEYOND, WORDS + BEYOND)?;
    Ok(kids.map(|kids| tree_of(&kids)))
}

/// Lists that just fit bring the same answer, and lists that are one short are refused 7.
pub fn room(given: &Given, expected: &Result<Tree, u32>) -> Result<(), String> {
    let places = given.places();
    let flat = expected.as_ref().map(|tree| tree.as_flattened().to_vec()).map_err(|&number| number);
    if lend(given, places, WORDS)? != flat {
        return Err("another answer on lists that just fit".into());
    }
    if lend(given, places, WORDS - 1)? != Err(7) {
        return Err("no refusal 7 of a workspace one word short".into());
    }
    if places > 0 && lend(given, places - 1, WORDS)? != Err(7) {
        return Err("no refusal 7 of a tree's list one place short".into());
    }
    Ok(())
}
