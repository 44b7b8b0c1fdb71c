//! Improvement on three sides: the port, path.rs, and a second reading that counts splits.

pub mod bench;
pub mod call;
pub mod cases;
pub mod model;
pub mod record;
#[cfg(test)]
mod tests;

use crate::case::{Case, Network, Tree};
use crate::lent::Given;
use crate::tally::Tally;
use crate::{port, rust};
use call::Call;
use model::{Ask, Improved};
use std::process::ExitCode;

/// A network with a valid tree, flags, and what is asked.
#[derive(Clone, Debug)]
pub struct Question {
    pub network: Network,
    pub tree: Tree,
    flags: Vec<bool>,
    ask: Ask,
}

/// What is counted: questions; answers with the same children and counts, and those of them with a tree that is changed; refusals; and the counts' sums.
const KINDS: [&str; 7] = ["questions", "same", "of them rebuilt", "refused 10", "refused 11", "rebuilds", "splits"];

pub struct Comparison {
    tally: Tally,
}

impl Question {
    fn call(&self) -> Call {
        Call { given: Given::new(&self.network), flags: self.flags.iter().map(|&flag| flag as u8).collect(), ask: self.ask }
    }

    fn case(&self) -> Case {
        Case { network: self.network.clone(), tree: Some(self.tree.clone()), flags: Some(self.flags.clone()) }
    }

    fn read(&self) -> Result<Improved, u32> {
        model::improve(&self.network, &self.tree, &self.flags, self.ask)
    }

    /// path.rs's children and rebuild count, if path.rs is at hand.
    fn rust(&self) -> Option<(Tree, u64)> {
        rust::reconfigure(&self.case(), self.ask.k, self.ask.limit.map(f64::from), self.ask.passes)
    }
}

/// The port must agree with the second reading, refusals and splits included, and with path.rs on children and rebuilds where nothing is refused.
fn outcome(question: &Question) -> Result<Result<Improved, u32>, String> {
    let call = question.call();
    let port = call::answer(&call, &question.tree)?;
    call::room(&call, &question.tree, &port)?;
    let read = question.read();
    if port != read {
        return Err(format!("port {port:?}, second reading {read:?}"));
    }
    if let (Ok(improved), Some(rust)) = (&port, question.rust()) {
        if rust != (improved.tree.clone(), improved.rebuilt) {
            return Err(format!("port {improved:?}, Rust {rust:?}"));
        }
    }
    Ok(port)
}

impl Comparison {
    fn run(&mut self, question: &Question) {
        let tally = &mut self.tally;
        tally.one("questions");
        match outcome(question) {
            Ok(Ok(improved)) => {
                tally.one("same");
                tally.add("of them rebuilt", (improved.rebuilt > 0) as u64);
                tally.add("rebuilds", improved.rebuilt);
                tally.add("splits", improved.tried);
            }
            Ok(Err(10)) => tally.one("refused 10"),
            Ok(Err(11)) => tally.one("refused 11"),
            other => tally.difference(other, question),
        }
    }
}

/// All questions; the exit status is 0 only if there is no difference.
pub fn run(count: usize, seed: u64) -> ExitCode {
    if !port::ready() {
        return ExitCode::FAILURE;
    }
    let mut comparison = Comparison { tally: Tally::new(&KINDS) };
    cases::run(&mut comparison, count, seed);
    comparison.tally.end()
}
