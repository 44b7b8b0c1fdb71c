//! Pricing on both sides, on pedigrees of 8 to 128 tables.

use crate::case::{Case, LEAVES};
use crate::listing::MOST;
use crate::memory::{Given, Lent};
use crate::numbers::Numbers;
use crate::timing::{time, Call, Table, TABLES};
use crate::{greedy, port, rust, timing, trees};
use std::hint::black_box;

const SEED: u64 = 1;
/// Batches, of which the least and the median are told, and calls in a batch.
const BATCHES: usize = 301;
const CALLS: u32 = 50;

/// Microseconds a call, in one batch.
fn batch(call: &mut Call) -> Option<f64> {
    let call = call.as_mut()?;
    Some(time(|| (0..CALLS).for_each(|_| call())) / CALLS as f64)
}

fn row(table: &mut Table, tables: usize, name: &str, mut port: Call, mut rust: Call) {
    let times = Table::turns(BATCHES, || batch(&mut port), || batch(&mut rust));
    table.row(tables, name, times, |_| Vec::new());
}

/// The practice pedigree of so many tables, with the tree of the Rust's greedy, or a random one where that is not at hand.
fn pedigree(leaf_count: usize) -> Case {
    let mut case = Case { network: greedy::bench::pedigree(leaf_count), tree: None, flags: None };
    case.tree = Some(rust::greedy(&case).unwrap_or_else(|| trees::valid(&mut Numbers::new(SEED), leaf_count)));
    case
}

/// The port on the network in memory.
fn in_memory<'a>(case: &Case) -> Call<'a> {
    let given = Given::new(case);
    let mut lent = Lent::new(&given, 0);
    port::AT_HAND.then(|| {
        Box::new(move || assert_eq!(crate::memory::tree_cost(black_box(&given), black_box(&mut lent)), 0)) as Box<dyn FnMut()>
    })
}

/// The port on the network file.
fn of_file<'a>(case: &Case) -> Call<'a> {
    let file = case.file();
    let mut out = [0; MOST];
    port::AT_HAND.then(|| {
        Box::new(move || assert_eq!(port::loqshyber_price(black_box(&file), black_box(&mut out)), 0)) as Box<dyn FnMut()>
    })
}

pub fn run() {
    let mut table = Table::new("pricing", &format!("{BATCHES} batches of {CALLS}"), &[]);
    for leaf_count in TABLES {
        let case = pedigree(leaf_count);
        row(&mut table, leaf_count, ", in memory; tree_cost", in_memory(&case), rust::tree_cost_call(&case));
    }
    table.growth();
    let case = pedigree(LEAVES);
    row(&mut table, LEAVES, ", file; tree_cost", of_file(&case), rust::tree_cost_call(&case));
    row(&mut table, LEAVES, ", file; is_valid and tree_cost", of_file(&case), rust::valid_cost_call(&case));
    timing::missing();
}
