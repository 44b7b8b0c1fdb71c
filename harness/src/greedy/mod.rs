//! Greedy on both sides: the port's tree beside path.rs's, each difference held to the one class that docs/DIFFERENCES.md names.

pub mod bench;
pub mod call;
mod cases;
mod model;
pub mod record;
#[cfg(test)]
mod tests;

pub use cases::wide as wide_networks;

use crate::case::{Case, Network, Tree};
use crate::lent::Given;
use crate::tally::{ensure, Tally};
use crate::{port, rust};
use model::{Rest, TooWide};
use std::process::ExitCode;

const TOO_WIDE: u32 = 12;

/// What becomes of a network.
#[derive(Clone, Copy, Debug, PartialEq, Eq)]
enum Outcome {
    /// Both trees are the same.
    Same,
    /// The port's tree is the second reading's; there is no Rust at hand.
    Alone,
    /// Refused 12 by the port, as the second reading has it. The Rust has no such refusal.
    TooWide,
    /// The rest is in another order, for the empty sum's −0.0.
    Rest,
}

impl Outcome {
    fn words(self) -> &'static str {
        match self {
            Self::Same => "same",
            Self::Alone => "without the Rust",
            Self::TooWide => "refused 12",
            Self::Rest => "by the rest of size 0",
        }
    }
}

pub struct Comparison {
    tally: Tally,
}

/// path.rs's greedy and what its `is_valid` says of the tree, if path.rs is at hand.
fn rust_tree(network: &Network) -> Option<(Tree, bool)> {
    let mut case = Case { network: network.clone(), tree: None, flags: None };
    let tree = rust::greedy(&case)?;
    case.tree = Some(tree.clone());
    let valid = rust::answer(&case)?.validity == rust::Validity::Valid;
    Some((tree, valid))
}

/// The port must agree with the second reading; the Rust with the port, or with the second reading under the order of −0.0.
fn outcome(network: &Network) -> Result<Outcome, String> {
    let given = Given::new(network);
    let port = call::answer(&given)?;
    call::room(&given, &port)?;
    let read = model::greedy(network, Rest::WholeBits);
    let tree = match (port, read) {
        (Err(TOO_WIDE), Err(TooWide)) => return Ok(Outcome::TooWide),
        (Ok(tree), Ok(read)) if tree == read => tree,
        (port, read) => return Err(format!("port {port:?}, second reading {read:?}")),
    };
    let Some((rust, valid)) = rust_tree(network) else { return Ok(Outcome::Alone) };
    ensure(valid, || format!("is_valid says no of {rust:?}"))?;
    if rust == tree {
        return Ok(Outcome::Same);
    }
    let with_minus_zero = model::greedy(network, Rest::EmptyFirst).map_err(|_| "no tree under another order".to_string())?;
    ensure(rust == with_minus_zero, || format!("port {tree:?}, Rust {rust:?}, and −0.0 does not explain it"))?;
    Ok(Outcome::Rest)
}

impl Comparison {
    fn run(&mut self, network: &Network) {
        self.tally.one("networks");
        match outcome(network) {
            Ok(outcome) => self.tally.one(outcome.words()),
            Err(what) => self.tally.difference(what, network),
        }
    }
}

/// All cases; the exit status is 0 only if no difference is unnamed.
pub fn run(count: usize, seed: u64) -> ExitCode {
    if !port::ready() {
        return ExitCode::FAILURE;
    }
    let kinds = [Outcome::Same, Outcome::Alone, Outcome::TooWide, Outcome::Rest].map(Outcome::words);
    let mut comparison = Comparison { tally: Tally::new(&[&["networks"], &kinds[..]].concat()) };
    cases::run(&mut comparison, count, seed);
    comparison.tally.end()
}
