//! Slicing on both sides, of greedy's trees of pedigrees of 8 to 128 tables, to three bits below the widest table.

use super::call::{self, words, Lent};
use super::model::Target;
use crate::case::Case;
use crate::lent::Given;
use crate::reconfigure::{bench::network, model};
use crate::timing::{time, Table, TABLES};
use crate::{port, rust, timing};
use std::hint::black_box;

/// Calls of each side, which take turns.
const CALLS: usize = 21;

fn row(table: &mut Table, leaf_count: usize, improving: bool) {
    let mut case = Case { network: network(leaf_count), tree: None, flags: None };
    let Some(tree) = rust::greedy(&case) else { return };
    let bits = model::price(&case.network, &tree, &[]).1.saturating_sub(3) as u16;
    let (given, target) = (Given::new(&case.network), Target { bits, improving });
    case.tree = Some(tree.clone());
    let mut sliced = 0;
    let mut rust = rust::slice_call(&case, bits, improving);
    let port = || {
        let (words, answer) = (vec![0; words(improving)], vec![0; 2]);
        let mut lent = Lent { tree: tree.as_flattened().to_vec(), flags: vec![0; case.network.weights.len()], words, answer };
        let taken = port::AT_HAND.then(|| time(|| assert_eq!(call::slice(black_box(&given), target, black_box(&mut lent)), 0)));
        sliced = lent.flags.iter().filter(|&&flag| flag == 1).count();
        taken
    };
    let times = Table::turns(CALLS, port, || rust.as_mut().map(time));
    table.row(leaf_count, if improving { ", improving" } else { "" }, times, |_| vec![sliced.to_string()]);
}

pub fn run() {
    let mut table = Table::new("slicing of greedy's tree", &CALLS.to_string(), &["sliced"]);
    for improving in [false, true] {
        TABLES.into_iter().for_each(|leaf_count| row(&mut table, leaf_count, improving));
        table.growth();
    }
    timing::missing();
}
