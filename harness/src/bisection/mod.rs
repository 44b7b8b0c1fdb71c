//! Bisection on both sides, from the same words: the port's tree and its number of words beside path.rs's, each difference held to what
//! docs/DIFFERENCES.md names.
//!
//! Of path.rs there is a second copy, made at build time (build.rs), in which the empty list's sum is 0 and not −0.0, and which tells when greedy
//! scores a pair with a table of over 40 bits. The port must agree with that copy on everything, and path.rs itself may differ only where its copy does.

pub mod bench;
pub mod call;
mod cases;
pub mod lines;
pub mod record;

use crate::lent::Given;
use crate::numbers::Numbers;
use crate::tally::{ensure, Tally};
use crate::{port, rust};
use call::Ask;
use cases::Question;
use std::process::ExitCode;

const TOO_WIDE: u32 = 12;
const SPENT: u32 = 13;
/// Words that suffice for most questions.
const FEW: usize = 150_000;
/// The lists' lengths are tried on one question of so many.
const ROOM: usize = 16;

/// What a run of the Rust gave.
pub struct Run {
    pub children: Vec<[u32; 2]>,
    pub taken: usize,
    /// Draws that were due after the last lent word.
    pub missed: usize,
}

/// What bisection answers.
#[derive(Clone, Debug, PartialEq, Eq)]
pub enum Answer {
    Tree { children: Vec<[u32; 2]>, taken: usize },
    Refused(u32),
}

/// What the settled copy of path.rs gave: its run, and how many words were taken when a pair was first too wide, if that was before a word was missing.
pub struct Settled {
    pub run: Run,
    pub wide_after: Option<usize>,
}

impl Settled {
    /// What the document asks for: 12 and 13 as the run meets them.
    fn answer(&self) -> Answer {
        match self {
            Self { wide_after: Some(_), .. } => Answer::Refused(TOO_WIDE),
            Self { run, .. } if run.missed > 0 => Answer::Refused(SPENT),
            Self { run, .. } => Answer::Tree { children: run.children.clone(), taken: run.taken },
        }
    }

    /// The words without which the answer is another.
    fn needed(&self) -> usize {
        self.wide_after.unwrap_or(self.run.taken)
    }
}

/// What is counted: questions; answers with the same children and number of words, and those of them with a word taken; questions asked again with one word less
/// and refused 13; refusals 12 of the port, as the settled copy has it; small ends whose rest is in another order, for the empty sum's −0.0.
const KINDS: [&str; 6] =
    ["questions", "same", "of them with draws", "refused 13 one word short", "refused 12", "by the rest of size 0"];

enum Outcome {
    Same(usize),
    TooWide,
    Rest,
}

/// The settled copy on as many of the question's words as suffice.
fn settle(question: &Question) -> Option<Settled> {
    let mut count = FEW.min(question.most());
    loop {
        let settled = rust::settled_bisection(&question.network, question.imbalance, question.cutoff, question.words(count))?;
        if settled.answer() != Answer::Refused(SPENT) || count == question.most() {
            return Some(settled);
        }
        count = question.most().min(count * 10);
    }
}

/// The port on so many of the question's words.
fn port_answer(question: &Question, given: &Given, count: usize) -> Result<Answer, String> {
    let draws = question.words(count);
    call::answer(given, Ask { imbalance: question.imbalance as usize, cutoff: question.cutoff, draws: &draws })
}

/// The outcome, and whether the question was asked again with one word less.
fn outcome(question: &Question, with_room: bool) -> Result<(Outcome, bool), String> {
    let Question { network, imbalance, cutoff, .. } = question;
    let settled = settle(question).ok_or(rust::MISSING)?;
    let (given, expected, needed) = (Given::new(network), settled.answer(), settled.needed());
    ensure(expected != Answer::Refused(SPENT), || "more words than were lent".into())?;
    for count in [needed, needed + 1] {
        let port = port_answer(question, &given, count)?;
        ensure(port == expected, || format!("of {count} words: port {port:?}, Rust {expected:?}"))?;
    }
    if with_room {
        let draws = question.words(needed);
        call::room(&given, Ask { imbalance: *imbalance as usize, cutoff: *cutoff, draws: &draws }, &expected)?;
    }
    if needed > 0 {
        let port = port_answer(question, &given, needed - 1)?;
        ensure(port == Answer::Refused(SPENT), || format!("one word short of {needed}: port {port:?}"))?;
    }
    let Answer::Tree { children, taken } = expected else { return Ok((Outcome::TooWide, needed > 0)) };
    let rust = rust::bisection(network, *imbalance, *cutoff, question.words(needed)).ok_or(rust::MISSING)?;
    ensure(rust.taken == taken && rust.missed == 0, || format!("Rust {} words, its settled copy {taken}", rust.taken))?;
    Ok((if rust.children == children { Outcome::Same(taken) } else { Outcome::Rest }, needed > 0))
}

struct Comparison {
    tally: Tally,
    questions: usize,
}

impl Comparison {
    fn run(&mut self, question: &Question) {
        self.questions += 1;
        let tally = &mut self.tally;
        tally.one("questions");
        let result = outcome(question, self.questions % ROOM == 0);
        tally.add("refused 13 one word short", matches!(result, Ok((_, true))) as u64);
        match result {
            Ok((Outcome::Same(taken), _)) => {
                tally.one("same");
                tally.add("of them with draws", (taken > 0) as u64);
            }
            Ok((Outcome::TooWide, _)) => tally.one("refused 12"),
            Ok((Outcome::Rest, _)) => tally.one("by the rest of size 0"),
            Err(what) => tally.difference(what, question),
        }
    }
}

/// So many questions, one in eight on a practice pedigree; the exit status is 0 only if there is no difference that has no name.
pub fn run(count: usize, seed: u64) -> ExitCode {
    if !port::ready() {
        return ExitCode::FAILURE;
    }
    if !rust::AT_HAND {
        return ExitCode::SUCCESS;
    }
    let (mut numbers, mut comparison) = (Numbers::new(seed), Comparison { tally: Tally::new(&KINDS), questions: 0 });
    cases::wide(&mut numbers).iter().for_each(|question| comparison.run(question));
    comparison.tally.tell("about 40 bits");
    for (name, largest) in [("random, to 8 leaves", 8), ("random, to 40 leaves", 40), ("random, to 128 leaves", 128)] {
        (0..count * 7 / 24).for_each(|k| comparison.run(&cases::mostly_light(&mut numbers, k, largest)));
        comparison.tally.tell(name);
    }
    (0..count.div_ceil(8)).for_each(|k| comparison.run(&cases::pedigree(&mut numbers, k)));
    comparison.tally.tell("practice pedigrees");
    comparison.tally.end()
}
