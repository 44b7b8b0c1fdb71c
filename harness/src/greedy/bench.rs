//! Greedy on both sides, on pedigrees of 8 to 128 tables.

use super::call::{self, WORDS};
use crate::case::{Case, Network};
use crate::lent::Given;
use crate::networks::practice_pedigree;
use crate::timing::{time, Table, TABLES};
use crate::{port, rust, timing};
use std::hint::black_box;

const SEED: u64 = 1;
/// Calls of each side, which take turns.
const CALLS: usize = 2001;

/// The practice pedigree of so many tables.
pub fn pedigree(leaf_count: usize) -> Network {
    let mut network = practice_pedigree(leaf_count.div_ceil(2), SEED);
    network.leaves.truncate(leaf_count);
    network
}

fn row(table: &mut Table, leaf_count: usize) {
    let network = pedigree(leaf_count);
    let given = Given::new(&network);
    let (mut tree, mut words) = (vec![0; 2 * leaf_count], vec![0; WORDS]);
    let mut rust = rust::greedy_call(&Case { network, tree: None, flags: None });
    let port = || {
        port::AT_HAND
            .then(|| time(|| assert_eq!(call::greedy(black_box(&given), black_box(&mut tree), black_box(&mut words)), 0)))
    };
    let times = Table::turns(CALLS, port, || rust.as_mut().map(time));
    table.row(leaf_count, "", times, |_| Vec::new());
}

pub fn run() {
    let mut table = Table::new("greedy", &CALLS.to_string(), &[]);
    TABLES.into_iter().for_each(|leaf_count| row(&mut table, leaf_count));
    table.growth();
    timing::missing();
}
