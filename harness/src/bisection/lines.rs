//! The Rust's `bisection`, run from lent words: cases for the definition of bisection.
//!
//! A case is a line of JSON: the network (`weights`, `leaves`, `outputs`), `imbalance` in thousandths, `cutoff`, `step`, `taken`, `children`. Word k of the lent
//! list, from 0 on, is (k + 1) × step modulo 2^64: a step of 0 or of a high power of two makes ties. The Rust took `taken` words, and gave `children`.

use super::cases::{self, Question};
use super::Run;
use crate::numbers::Numbers;
use crate::rust;

fn list<T: std::fmt::Display>(items: &[T]) -> String {
    let texts: Vec<String> = items.iter().map(T::to_string).collect();
    format!("[{}]", texts.join(","))
}

fn line(case: &Question, run: &Run) -> String {
    let network = &case.network;
    let leaves: Vec<String> = network.leaves.iter().map(|leaf| list(leaf)).collect();
    let children: Vec<String> = run.children.iter().map(|pair| list(pair)).collect();
    format!(
        "{{\"weights\":{},\"leaves\":{},\"outputs\":{},\"imbalance\":{},\"cutoff\":{},\"step\":{},\"taken\":{},\"children\":{}}}",
        list(&network.weights),
        list(&leaves),
        list(&network.outputs),
        case.imbalance,
        case.cutoff,
        case.step,
        run.taken,
        list(&children)
    )
}

/// Prints `count` cases of at most `largest` leaves. Each is run again with just the words that were taken, and with one less.
pub fn run(count: usize, seed: u64, largest: usize) -> Result<(), &'static str> {
    let mut numbers = Numbers::new(seed);
    for k in 0..count {
        let case = cases::random(&mut numbers, k, largest);
        let from =
            |lent: usize| rust::bisection(&case.network, case.imbalance, case.cutoff, case.words(lent)).ok_or(rust::MISSING);
        let first = from(case.most())?;
        if first.missed > 0 {
            return Err("more words than were lent");
        }
        let again = from(first.taken)?;
        if again.missed > 0 || again.children != first.children || again.taken != first.taken {
            return Err("not the same from the same words");
        }
        if first.taken > 0 && from(first.taken - 1)?.missed == 0 {
            return Err("no draw is due past the words");
        }
        println!("{}", line(&case, &first));
    }
    Ok(())
}
