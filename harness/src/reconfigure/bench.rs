//! Improvement on both sides, of greedy's trees of pedigrees of 8 to 128 tables.

use super::call::{self, words, Call};
use super::model::Ask;
use super::Question;
use crate::case::{Network, Tree};
use crate::greedy::bench::pedigree;
use crate::timing::{time, Table, TABLES};
use crate::{port, rust, timing};
use std::hint::black_box;

/// Calls of each side, which take turns.
const CALLS: usize = 21;

/// The pedigree without the non-output indices that just one leaf names, so that none dangles.
pub fn network(leaf_count: usize) -> Network {
    let mut network = pedigree(leaf_count);
    let named = |i: u16| network.leaves.iter().filter(|leaf| leaf.contains(&i)).count();
    let once: Vec<u16> = (0..network.weights.len() as u16).filter(|&i| named(i) == 1 && !network.outputs.contains(&i)).collect();
    for leaf in &mut network.leaves {
        leaf.retain(|i| !once.contains(i));
    }
    network
}

fn row(table: &mut Table, leaf_count: usize, passes: usize) {
    let network = network(leaf_count);
    let case = crate::case::Case { network: network.clone(), tree: None, flags: None };
    let Some(start): Option<Tree> = rust::greedy(&case) else { return };
    let question = Question { network, tree: start, flags: Vec::new(), ask: Ask { k: 8, passes, limit: None } };
    let call: Call = question.call();
    let (mut lent, mut answer) = (vec![0; words(8)], [0; 2]);
    let mut rust = rust::reconfigure_call(&question.case(), 8, None, passes);
    let port = || {
        let mut tree = question.tree.as_flattened().to_vec();
        let call = || assert_eq!(call::reconfigure(black_box(&call), black_box(&mut tree), black_box(&mut lent), &mut answer), 0);
        port::AT_HAND.then(|| time(call))
    };
    let times = Table::turns(CALLS, port, || rust.as_mut().map(time));
    table.row(leaf_count, &format!(", {passes} passes"), times, |port| {
        vec![answer[1].to_string(), port.map_or("-".into(), |port| format!("{:.1}", port.least * 1e3 / answer[1] as f64))]
    });
}

pub fn run() {
    let mut table = Table::new("improvement of greedy's tree, k = 8", &CALLS.to_string(), &["splits", "ns a split"]);
    for passes in [1, 4] {
        TABLES.into_iter().for_each(|leaf_count| row(&mut table, leaf_count, passes));
        table.growth();
    }
    timing::missing();
}
