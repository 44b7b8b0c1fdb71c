//! The port's slicing on lists in memory.

use super::model::{Sliced, Target};
use crate::case::Tree;
use crate::lent::{marked_from, tree_of, words_kept, Given, BEYOND, WORD_MARK};
use crate::port::loqshyber_slice_tree;

/// What stands in the lent lists before a call.
const FLAG_MARK: u8 = 0xa5;

/// The stated workspace, in words.
pub const fn words(improving: bool) -> usize {
    if improving {
        4096 + (8 << 8)
    } else {
        4096
    }
}

/// The lists that a call writes.
pub struct Lent {
    pub tree: Vec<u16>,
    pub flags: Vec<u8>,
    pub words: Vec<u64>,
    pub answer: Vec<u64>,
}

/// The number of the refusal, or 0; the lists are written.
pub fn slice(given: &Given, target: Target, lent: &mut Lent) -> u32 {
    let Lent { tree, flags, words, answer } = lent;
    let improving = target.improving as u32;
    loqshyber_slice_tree(
        &given.weights,
        &given.leg_counts,
        &given.legs,
        &given.outputs,
        tree,
        flags,
        words,
        answer,
        improving,
        target.bits,
    )
}

/// The call on marked lists of so many words, flags and places; what must hold of the lists afterwards is checked.
fn lend(given: &Given, tree: &[u16], target: Target, lengths: [usize; 3]) -> Result<Result<Sliced, u32>, String> {
    let [word_count, flag_count, places] = lengths;
    let (words, answer) = (vec![WORD_MARK; word_count], vec![WORD_MARK; places]);
    let mut lent = Lent { tree: tree.to_vec(), flags: vec![FLAG_MARK; flag_count], words, answer };
    let refusal = slice(given, target, &mut lent);
    words_kept(refusal, self::words(target.improving), &lent.words)?;
    let [counts, flags] = if refusal == 0 { [2, given.weights.len()] } else { [0; 2] };
    marked_from(refusal, "the answer's list is", &lent.answer, counts, WORD_MARK)?;
    marked_from(refusal, "the flags are", &lent.flags, flags, FLAG_MARK)?;
    if refusal != 0 {
        return if lent.tree == tree { Ok(Err(refusal)) } else { Err(format!("number {refusal}, and the tree is changed")) };
    }
    if lent.flags[..flags].iter().any(|&x| x > 1) {
        return Err("a flag over 1".into());
    }
    let flags = lent.flags[..flags].iter().map(|&x| x == 1).collect();
    Ok(Ok(Sliced { tree: tree_of(&lent.tree), flags, rebuilt: lent.answer[0], tried: lent.answer[1] }))
}

/// The port's answer on lists with some room to spare; lists that just fit must bring the same, and each that is one short the refusal 7.
pub fn answer(given: &Given, tree: &Tree, target: Target) -> Result<Result<Sliced, u32>, String> {
    let fit = [words(target.improving), given.weights.len(), 2];
    let call = |lengths| lend(given, tree.as_flattened(), target, lengths);
    let answer = call(fit.map(|length| length + BEYOND))?;
    if call(fit)? != answer {
        return Err("another answer on lists that just fit".into());
    }
    for k in 0..fit.len() {
        let mut short = fit;
        if fit[k] > 0 {
            short[k] -= 1;
            if call(short)? != Err(7) {
                return Err(format!("no refusal 7 of lengths {short:?}"));
            }
        }
    }
    Ok(answer)
}
