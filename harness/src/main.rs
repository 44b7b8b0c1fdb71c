//! The port beside the Rust that it comes from. See README.md.

mod all;
mod bench;
mod bisection;
mod case;
mod compare;
mod damage;
mod edges;
#[cfg(path_rs)]
mod engine;
mod families;
#[cfg(all(test, path_rs))]
mod findings;
mod greedy;
mod large;
mod lent;
mod listing;
mod memory;
mod networks;
mod numbers;
mod plan_bench;
mod planner_record;
mod port;
mod reconfigure;
mod record;
mod rust;
mod slice;
mod small;
mod stacks;
mod tally;
mod timing;
mod tree_record;
mod trees;

use std::path::Path;
use std::process::ExitCode;
use std::{env, io};

/// The crate whose input and output `record` writes.
const REPLAY: &str = concat!(env!("CARGO_MANIFEST_DIR"), "/../crates/replay");

/// The crate whose input and output `tree-record` writes.
const TREE_RUNS: &str = concat!(env!("CARGO_MANIFEST_DIR"), "/../crates/treeruns");

/// The crate whose input and output `planner-record` writes.
const PLANNER_RUNS: &str = concat!(env!("CARGO_MANIFEST_DIR"), "/../crates/planneruns");

const USAGE: &str = "usage: harness all [SECONDS [SEED]] | compare|greedy|bisection|reconfigure|slice [NETWORKS [SEED]] | bisect [NETWORKS [SEED [LEAVES]]] | families | damage [FILES [SEED]] | bench | price-bench | greedy-bench | bisection-bench | reconfigure-bench | slice-bench | plan-bench | stacks | record | tree-record | planner-record";

fn compare(count: usize, seed: u64) -> ExitCode {
    if !port::ready() {
        return ExitCode::FAILURE;
    }
    let mut comparison = compare::Comparison::new();
    small::run(&mut comparison, seed);
    edges::run(&mut comparison);
    large::run(&mut comparison, count, seed);
    comparison.tally.end()
}

/// What became of writing the input and output of a crate.
fn recorded(name: &str, result: io::Result<()>) -> ExitCode {
    match result {
        Ok(()) => ExitCode::SUCCESS,
        Err(error) => {
            println!("crates/{name}: {error}");
            ExitCode::FAILURE
        }
    }
}

fn main() -> ExitCode {
    rust::quiet_caught_panics();
    let words: Vec<String> = env::args().skip(1).collect();
    let number = |k: usize, usual: u64| words.get(k).map_or(Some(usual), |word| word.parse().ok());
    match (words.first().map(String::as_str), number(1, 100_000), number(2, 1)) {
        (Some("all"), ..) => all::run(number(1, 60).unwrap_or(60), number(2, 1).unwrap_or(1)),
        (Some("compare"), Some(count), Some(seed)) => compare(count as usize, seed),
        (Some("greedy"), Some(count), Some(seed)) => greedy::run(count as usize, seed),
        (Some("greedy-bench"), ..) => {
            greedy::bench::run();
            ExitCode::SUCCESS
        }
        (Some("tree-record"), ..) => recorded("treeruns", tree_record::run(Path::new(TREE_RUNS))),
        (Some("reconfigure"), Some(count), Some(seed)) => reconfigure::run(count as usize, seed),
        (Some("reconfigure-bench"), ..) => {
            reconfigure::bench::run();
            ExitCode::SUCCESS
        }
        (Some("slice"), Some(count), Some(seed)) => slice::run(count as usize, seed),
        (Some("slice-bench"), ..) => {
            slice::bench::run();
            ExitCode::SUCCESS
        }
        (Some("plan-bench"), ..) => {
            plan_bench::run();
            ExitCode::SUCCESS
        }
        (Some("bisect"), Some(count), Some(seed)) => {
            match bisection::lines::run(count as usize, seed, number(3, 128).unwrap_or(128) as usize) {
                Ok(()) => ExitCode::SUCCESS,
                Err(error) => {
                    eprintln!("{error}");
                    ExitCode::FAILURE
                }
            }
        }
        (Some("bisection"), Some(count), Some(seed)) => bisection::run(count as usize, seed),
        (Some("bisection-bench"), ..) => {
            bisection::bench::run();
            ExitCode::SUCCESS
        }
        (Some("planner-record"), ..) => recorded("planneruns", planner_record::run(Path::new(PLANNER_RUNS))),
        (Some("families"), ..) => families::run_both(),
        (Some("damage"), Some(count), Some(seed)) => damage::run(count as usize, seed),
        (Some("price-bench"), ..) => {
            bench::run();
            ExitCode::SUCCESS
        }
        (Some("bench"), ..) => {
            bench::run();
            greedy::bench::run();
            bisection::bench::run();
            reconfigure::bench::run();
            slice::bench::run();
            plan_bench::run();
            ExitCode::SUCCESS
        }
        (Some("stacks"), ..) => stacks::run(),
        (Some("record"), ..) => recorded("replay", record::run(Path::new(REPLAY))),
        _ => {
            println!("{USAGE}");
            ExitCode::FAILURE
        }
    }
}
