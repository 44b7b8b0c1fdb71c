//! The port's improvement on lists in memory.

use super::model::{Ask, Improved};
use crate::case::Tree;
use crate::lent::{marked_from, tree_of, words_kept, Given, BEYOND, WORD_MARK};
use crate::port::loqshyber_reconfigure;

/// A limit of so many bits is none.
pub const NO_LIMIT: u32 = 65_536;

/// The stated workspace, in words.
pub fn words(k: usize) -> usize {
    4096 + (8 << k.clamp(3, 12))
}

/// What is asked, as the port takes it.
#[derive(Clone)]
pub struct Call {
    pub given: Given,
    pub flags: Vec<u8>,
    pub ask: Ask,
}

/// The number of the refusal, or 0, the children in `tree`, and the counts in `answer`.
pub fn reconfigure(call: &Call, tree: &mut [u16], words: &mut [u64], answer: &mut [u64]) -> u32 {
    let (given, ask) = (&call.given, call.ask);
    let limit = ask.limit.unwrap_or(NO_LIMIT);
    loqshyber_reconfigure(
        &given.weights,
        &given.leg_counts,
        &given.legs,
        &given.outputs,
        &call.flags,
        tree,
        words,
        answer,
        ask.k,
        ask.passes,
        limit,
    )
}

/// The call on marked lists of so many words and places; what must hold of the lists afterwards is checked.
pub fn lend(call: &Call, start: &[u16], word_count: usize, places: usize) -> Result<Result<Improved, u32>, String> {
    let (mut tree, mut words, mut answer) = (start.to_vec(), vec![WORD_MARK; word_count], vec![WORD_MARK; places]);
    let refusal = reconfigure(call, &mut tree, &mut words, &mut answer);
    words_kept(refusal, self::words(call.ask.k), &words)?;
    marked_from(refusal, "the answer's list is", &answer, if refusal == 0 { 2 } else { 0 }, WORD_MARK)?;
    if refusal != 0 {
        return if tree == start { Ok(Err(refusal)) } else { Err(format!("number {refusal}, and the tree is changed")) };
    }
    Ok(Ok(Improved { tree: tree_of(&tree), rebuilt: answer[0], tried: answer[1] }))
}

/// The port's answer on lists with some room to spare.
pub fn answer(call: &Call, tree: &Tree) -> Result<Result<Improved, u32>, String> {
    lend(call, tree.as_flattened(), words(call.ask.k) + BEYOND, 2 + BEYOND)
}

/// Lists that just fit bring the same answer, and lists that are one short are refused 7.
pub fn room(call: &Call, tree: &Tree, expected: &Result<Improved, u32>) -> Result<(), String> {
    let stated = words(call.ask.k);
    if lend(call, tree.as_flattened(), stated, 2)? != *expected {
        return Err("another answer on lists that just fit".into());
    }
    for (word_count, places) in [(stated - 1, 2), (stated, 1)] {
        if lend(call, tree.as_flattened(), word_count, places)? != Err(7) {
            return Err(format!("no refusal 7 of {word_count} words and {places} places"));
        }
    }
    Ok(())
}
