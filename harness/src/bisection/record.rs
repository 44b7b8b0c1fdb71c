//! A sample of the Rust's bisections, stored for the program `planneruns`, which needs no Rust.
//!
//! Its input: a 4-byte count; for each case two bytes of an imbalance, two of a cutoff, four of a number of words, eight of a step, a 4-byte length and
//! so many bytes of a network file without a tree; high bytes first. Word k of the lent list, from 0 on, is (k + 1) × step modulo 2^64. Its output,
//! a line a case: `taken`, the words taken, and the left and the right child of each node; or `refused K`.
//!
//! A tree is stored only if path.rs and its settled copy (see mod.rs) agree on it. path.rs refuses nothing, so refusals stand by the settled copy alone.

use super::cases::{self, Question};
use super::{settle, Answer};
use crate::case::Case;
use crate::numbers::Numbers;
use crate::rust;

const SEED: u64 = 2029;
/// Questions of each size, and on practice pedigrees.
const EACH: usize = 60;
/// The most words that the program lends.
const MOST: usize = 65_536;

fn questions() -> Vec<Question> {
    let mut numbers = Numbers::new(SEED);
    let mut questions = cases::wide(&mut numbers);
    for largest in [8, 24, 128] {
        questions.extend((0..EACH).map(|k| cases::random(&mut numbers, k, largest)));
    }
    questions.extend((0..EACH).map(|k| cases::pedigree(&mut numbers, k)));
    questions
}

fn line(answer: &Answer) -> String {
    match answer {
        Answer::Refused(number) => format!("refused {number}"),
        Answer::Tree { children, taken } => {
            children.as_flattened().iter().fold(format!("taken {taken}"), |text, child| format!("{text} {child}"))
        }
    }
}

/// The question with so many words: its input and its line.
fn store(question: &Question, count: usize, input: &mut Vec<u8>, output: &mut String) -> Option<()> {
    let Question { network, imbalance, cutoff, step } = question;
    let answer = rust::settled_bisection(network, *imbalance, *cutoff, question.words(count))?.answer();
    let file = Case { network: network.clone(), tree: None, flags: None }.file();
    input.extend((*imbalance as u16).to_be_bytes());
    input.extend((*cutoff as u16).to_be_bytes());
    input.extend((count as u32).to_be_bytes());
    input.extend(step.to_be_bytes());
    input.extend((file.len() as u32).to_be_bytes());
    input.extend(file);
    *output += &(line(&answer) + "\n");
    Some(())
}

/// Whether path.rs has the tree of its settled copy, where that has one.
fn agrees(question: &Question, answer: &Answer) -> Option<bool> {
    let Answer::Tree { children, taken } = answer else { return Some(true) };
    let run = rust::bisection(&question.network, question.imbalance, question.cutoff, question.words(*taken))?;
    Some(run.children == *children && run.missed == 0)
}

/// The program's input and output on these cases; none without path.rs. Every third question is stored with one word less too.
pub fn sample() -> Option<(Vec<u8>, String)> {
    let (mut count, mut passed) = (0u32, 0);
    let (mut input, mut output) = (Vec::new(), String::new());
    for (k, question) in questions().iter().enumerate() {
        let settled = settle(question)?;
        let needed = settled.needed();
        if needed > MOST || agrees(question, &settled.answer()) != Some(true) {
            passed += 1;
            continue;
        }
        let shorter = (k % 3 == 0 && needed > 0).then(|| needed - 1);
        for words in [Some(needed), shorter].into_iter().flatten() {
            store(question, words, &mut input, &mut output)?;
            count += 1;
        }
    }
    println!("bisection: {count} cases, {passed} questions passed over");
    Some(([&count.to_be_bytes()[..], &input].concat(), output))
}
