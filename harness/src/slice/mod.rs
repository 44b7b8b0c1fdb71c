//! Slicing on three sides: the port, path.rs, and a second reading in whole numbers that counts splits.

pub mod bench;
pub mod call;
pub mod model;
#[cfg(test)]
mod tests;

use crate::case::Case;
use crate::lent::Given;
use crate::networks::SHAPES;
use crate::numbers::Numbers;
use crate::reconfigure::{cases, Question};
use crate::tally::Tally;
use crate::{port, rust};
use model::{Sliced, Target};
use std::process::ExitCode;

/// What is counted: questions; answers with the same children, flags and counts, those of them with an index flagged, and with a tree that is changed; refusals;
/// answers of path.rs that are others, to which choices that are close lead.
const KINDS: [&str; 7] = ["questions", "same", "of them sliced", "rebuilt", "refused 10", "refused 11", "close"];

enum Outcome {
    Same(Sliced),
    Refused(u32),
    Close,
}

/// The port must agree with the second reading, refusals and splits included, and with path.rs on children and flags where nothing is refused.
fn outcome(question: &Question, target: Target) -> Result<Outcome, String> {
    let Question { network, tree, .. } = question;
    let port = call::answer(&Given::new(network), tree, target)?;
    let read = model::slice(network, tree, target);
    if port != read {
        return Err(format!("port {port:?}, second reading {read:?}"));
    }
    let sliced = match port {
        Err(number) => return Ok(Outcome::Refused(number)),
        Ok(sliced) => sliced,
    };
    let case = Case { network: network.clone(), tree: Some(tree.clone()), flags: None };
    match rust::slice(&case, target.bits, target.improving) {
        Some(rust) if rust != (sliced.tree.clone(), sliced.flags.clone()) => {
            let close = model::is_close(network, tree, target, &rust);
            close.then_some(Outcome::Close).ok_or_else(|| format!("port {sliced:?}, Rust {rust:?}"))
        }
        _ => Ok(Outcome::Same(sliced)),
    }
}

fn run_one(tally: &mut Tally, question: &Question, target: Target) {
    tally.one("questions");
    match outcome(question, target) {
        Ok(Outcome::Same(sliced)) => {
            tally.one("same");
            tally.add("of them sliced", sliced.flags.contains(&true) as u64);
            tally.add("rebuilt", (sliced.rebuilt > 0) as u64);
        }
        Ok(Outcome::Refused(10)) => tally.one("refused 10"),
        Ok(Outcome::Refused(11)) => tally.one("refused 11"),
        Ok(Outcome::Close) => tally.one("close"),
        Ok(Outcome::Refused(number)) => tally.difference(format!("refused {number}"), (target, question)),
        Err(error) => tally.difference(error, (target, question)),
    }
}

/// About the widest table's bits, or a few below; now and then any.
fn target(numbers: &mut Numbers, question: &Question) -> Target {
    let widest = crate::reconfigure::model::price(&question.network, &question.tree, &[]).1;
    let below = if numbers.chance(1, 10) { widest as usize } else { (widest as usize).min(8) };
    let bits = (widest as usize + 1 - numbers.below(below + 2).min(widest as usize + 1)) as u16;
    Target { bits, improving: numbers.chance(1, 2) }
}

/// So many questions, one in eight on a practice pedigree; the exit status is 0 only if there is no difference that has no name.
pub fn run(count: usize, seed: u64) -> ExitCode {
    if !port::ready() {
        return ExitCode::FAILURE;
    }
    let (mut numbers, mut tally) = (Numbers::new(seed), Tally::new(&KINDS));
    for (k, &shape) in SHAPES.iter().enumerate() {
        for _ in 0..(count * 7 / 8 + k) / SHAPES.len() {
            let question = cases::random(&mut numbers, shape);
            let target = target(&mut numbers, &question);
            run_one(&mut tally, &question, target);
        }
        tally.tell(&format!("{shape:?}, random"));
    }
    for k in 0..count.div_ceil(8) {
        let question = cases::pedigree(&mut numbers, k);
        let target = target(&mut numbers, &question);
        run_one(&mut tally, &question, target);
    }
    tally.tell("practice pedigrees");
    tally.end()
}
