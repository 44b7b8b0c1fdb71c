//! The port's bisection on lists in memory.

use super::Answer;
use crate::lent::{marked_from, words_kept, Given, BEYOND, MARK, WORD_MARK};
use crate::port::loqshyber_bisection;

/// The stated workspace, in words.
pub const WORDS: usize = 32_768;

/// What is asked of a network.
#[derive(Clone, Copy)]
pub struct Ask<'a> {
    pub imbalance: usize,
    pub cutoff: usize,
    pub draws: &'a [u64],
}

/// The lists that are written.
pub struct Lent {
    pub tree: Vec<u16>,
    pub words: Vec<u64>,
    pub answer: Vec<u64>,
}

/// The number of the refusal, or 0, the children at the front of the tree's list and the words taken in the answer's.
pub fn bisection(given: &Given, ask: Ask, lent: &mut Lent) -> u32 {
    let Lent { tree, words, answer } = lent;
    loqshyber_bisection(
        &given.weights,
        &given.leg_counts,
        &given.legs,
        &given.outputs,
        ask.draws,
        tree,
        words,
        answer,
        ask.imbalance,
        ask.cutoff,
    )
}

/// Whether the lent lists are as they must be after a call: the tree's list and the answer untouched after a refusal, and else past what is stated.
fn lists_kept(refusal: u32, places: usize, lent: &Lent) -> Result<(), String> {
    let (tree, answer) = if refusal == 0 { (places, 1) } else { (0, 0) };
    marked_from(refusal, "the tree's list is", &lent.tree, tree, MARK)?;
    marked_from(refusal, "the answer's list is", &lent.answer, answer, WORD_MARK)?;
    words_kept(refusal, WORDS, &lent.words)
}

/// The call on marked lists of so many places, words and numbers.
fn lend(given: &Given, ask: Ask, places: usize, words: usize, numbers: usize) -> Result<Answer, String> {
    let mut lent = Lent { tree: vec![MARK; places], words: vec![WORD_MARK; words], answer: vec![WORD_MARK; numbers] };
    let refusal = bisection(given, ask, &mut lent);
    lists_kept(refusal, given.places(), &lent)?;
    if refusal != 0 {
        return Ok(Answer::Refused(refusal));
    }
    let children = lent.tree[..given.places()].chunks(2).map(|pair| [pair[0] as u32, pair[1] as u32]).collect();
    Ok(Answer::Tree { children, taken: lent.answer[0] as usize })
}

/// The port's answer on lists with some room to spare.
pub fn answer(given: &Given, ask: Ask) -> Result<Answer, String> {
    lend(given, ask, given.places() + BEYOND, WORDS + BEYOND, 1 + BEYOND)
}

/// Lists that just fit bring the same answer, lists that are one short are refused 7, and an imbalance over 1,000 is refused 3.
pub fn room(given: &Given, ask: Ask, expected: &Answer) -> Result<(), String> {
    let places = given.places();
    let refused = |number: u32, answer: Answer, what: &str| {
        (answer == Answer::Refused(number)).then_some(()).ok_or_else(|| format!("no refusal {number} of {what}: {answer:?}"))
    };
    if lend(given, ask, places, WORDS, 1)? != *expected {
        return Err("another answer on lists that just fit".into());
    }
    refused(7, lend(given, ask, places, WORDS - 1, 1)?, "a workspace one word short")?;
    refused(7, lend(given, ask, places, WORDS, 0)?, "an answer's list one place short")?;
    if places > 0 {
        refused(7, lend(given, ask, places - 1, WORDS, 1)?, "a tree's list one place short")?;
    }
    refused(3, lend(given, Ask { imbalance: 1001, ..ask }, places, WORDS, 1)?, "an imbalance of 1,001 thousandths")
}
