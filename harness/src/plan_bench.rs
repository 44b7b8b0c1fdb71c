//! The program `plan` on both sides, of pedigrees of 8 to 128 tables: the port from the file's bytes to the text, the Rust's calls from its own structures.

use crate::case::Case;
use crate::reconfigure::{bench::network, model};
use crate::timing::{time, Table, TABLES};
use crate::{port, rust, timing};
use std::hint::black_box;

/// Calls of each side, which take turns.
const CALLS: usize = 21;
/// No text is longer.
const TEXT: usize = 131_072;

/// A file that asks for a target, so many bits below the widest table of greedy's tree.
fn file(case: &Case, target: Option<u8>) -> Vec<u8> {
    let mut file = case.file();
    file.extend(target.iter().flat_map(|&bits| [6, 0, 1, bits]));
    file
}

fn row(table: &mut Table, leaf_count: usize, below: Option<u32>) {
    let case = Case { network: network(leaf_count), tree: None, flags: None };
    let Some(tree) = rust::greedy(&case) else { return };
    let target = below.map(|bits| model::price(&case.network, &tree, &[]).1.saturating_sub(bits) as u8);
    let (file, mut out) = (file(&case, target), vec![0; TEXT]);
    let mut rust = rust::plan_call(&case, target);
    let port = || {
        let taken = port::AT_HAND.then(|| time(|| assert!(port::loqshyber_plan(black_box(&file), black_box(&mut out)) > 0)));
        assert!(taken.is_none() || out.starts_with(b"plan "));
        taken
    };
    let times = Table::turns(CALLS, port, || rust.as_mut().map(time));
    let name = target.map_or(String::new(), |bits| format!(", target {bits}"));
    table.row(leaf_count, &name, times, |_| Vec::new());
}

pub fn run() {
    let mut table = Table::new("the program plan", &CALLS.to_string(), &[]);
    for below in [None, Some(3)] {
        TABLES.into_iter().for_each(|leaf_count| row(&mut table, leaf_count, below));
        table.growth();
    }
    timing::missing();
}
