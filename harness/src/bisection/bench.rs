//! Bisection on both sides, on pedigrees of 8 to 128 tables, with path.rs's usual imbalance and cutoff, and down to single tables.

use super::call::{self, Ask, Lent, WORDS};
use super::cases::Question;
use crate::greedy::bench::pedigree;
use crate::lent::Given;
use crate::timing::{time, Table, TABLES};
use crate::{port, rust, timing};
use std::hint::black_box;

const IMBALANCE: u32 = 200;
const STEP: u64 = 0x9e37_79b9_7f4a_7c15;
/// path.rs's usual cutoff, and the least.
const CUTOFFS: [usize; 2] = [12, 2];
/// Calls of each side, which take turns.
const CALLS: usize = 101;

fn row(table: &mut Table, leaf_count: usize, cutoff: usize) {
    let question = Question { network: pedigree(leaf_count), imbalance: IMBALANCE, cutoff, step: STEP };
    let network = &question.network;
    let given = Given::new(network);
    let Some(run) = rust::bisection(network, IMBALANCE, cutoff, question.words(question.most())) else { return };
    let draws = question.words(run.taken);
    let ask = Ask { imbalance: IMBALANCE as usize, cutoff, draws: &draws };
    let mut lent = Lent { tree: vec![0; given.places()], words: vec![0; WORDS], answer: vec![0] };
    let port = || {
        let taken = port::AT_HAND.then(|| time(|| assert_eq!(call::bisection(black_box(&given), ask, black_box(&mut lent)), 0)));
        assert!(taken.is_none() || lent.answer[0] as usize == draws.len());
        taken
    };
    let times = Table::turns(CALLS, port, || rust::bisection_time(network, IMBALANCE, cutoff, &draws));
    table.row(leaf_count, &format!(", cutoff {cutoff}"), times, |_| vec![draws.len().to_string()]);
}

pub fn run() {
    let mut table = Table::new("bisection", &CALLS.to_string(), &["words"]);
    for cutoff in CUTOFFS {
        TABLES.into_iter().for_each(|leaf_count| row(&mut table, leaf_count, cutoff));
        table.growth();
    }
    timing::missing();
}
