//! The entries of docs/DIFFERENCES.md, and the draws of bisection: runs of path.rs and, of the calls that it has, the port.

use crate::bisection;
use crate::case::{Case, Network, Tree};
use crate::engine::path::{self, BisectParams, ContractionTree, GreedyParams, Hypergraph};
use crate::listing::{Listing, Total, MOST};
use crate::memory::{Given, Lent};
use crate::networks::practice_pedigree;
use crate::port;
use crate::reconfigure::call::{self, Call};
use crate::reconfigure::model::{Ask, Improved};
use crate::rust::{self, Validity};
use rand::draws;
use std::io::{self, Write};

fn hypergraph(network: &Network) -> Hypergraph {
    let wide = |list: &Vec<u16>| list.iter().map(|&i| i as u32).collect();
    Hypergraph::new(
        network.leaves.iter().map(wide).collect(),
        wide(&network.outputs),
        network.weights.iter().map(|&w| w as f64).collect(),
    )
}

fn network(weights: &[u8], leaves: &[&[u16]]) -> Network {
    Network { weights: weights.to_vec(), leaves: leaves.iter().map(|leaf| leaf.to_vec()).collect(), outputs: Vec::new() }
}

fn total(network: &Hypergraph, tree: &ContractionTree) -> f64 {
    path::tree_cost(network, tree, &[]).log2_total.exp2().round()
}

/// Says so where the port is not linked, to the terminal even where the test's own output is kept back.
fn tell_if_missing() {
    if !port::AT_HAND {
        writeln!(io::stderr(), "{}", port::MISSING).expect("stderr can be written");
    }
}

/// The port's answer, if the port is linked, and the Rust's.
fn both(case: &Case) -> (Option<Result<Listing, u32>>, rust::Answer) {
    rust::quiet_caught_panics();
    tell_if_missing();
    let answer = rust::answer(case).expect("path.rs is compiled in");
    let port = port::AT_HAND.then(|| {
        let mut out = [0; MOST];
        match port::loqshyber_price(&case.file(), &mut out) {
            0 => Ok(Listing::decode(&out).expect("a listing").0),
            refusal => Err(refusal),
        }
    });
    (port, answer)
}

/// A case of so many leaves without indices.
fn bare(leaf_count: usize, tree: Tree) -> Case {
    Case { network: Network { leaves: vec![Vec::new(); leaf_count], ..Network::default() }, tree: Some(tree), flags: None }
}

#[test]
fn is_valid_panics_on_a_child_above_the_root() {
    let (port, answer) = both(&bare(2, vec![[0, 3]]));
    assert_eq!(answer.validity, Validity::Panics);
    assert!(port.is_none_or(|port| port == Err(8)));
}

/// Both totals of a valid tree.
fn totals(case: &Case) -> (Option<Total>, f64) {
    let (port, answer) = both(case);
    (port.map(|port| port.expect("a valid tree").total), answer.cost.expect("a valid tree").log2_total)
}

#[test]
fn totals_are_exact_beyond_or_none() {
    let (port, rust) = totals(&bare(4, vec![[0, 1], [4, 2], [5, 3]]));
    assert!(port.is_none_or(|total| total == Total::Exact(3)) && (rust - 3f64.log2()).abs() <= 1e-9);
    let (port, rust) = totals(&bare(0, Vec::new()));
    assert!(port.is_none_or(|total| total == Total::Exact(0)) && rust == f64::NEG_INFINITY);
    let weights = vec![8, 8, 8, 8, 8, 8, 5];
    let network = Network { weights, leaves: vec![(0..7).collect(), Vec::new()], outputs: Vec::new() };
    let (port, rust) = totals(&Case { network, tree: Some(vec![[0, 1]]), flags: None });
    assert!(port.is_none_or(|total| total == Total::Beyond) && rust == 53.0);
}

#[test]
fn a_leaf_has_no_work_and_no_leaves_no_widest() {
    let (port, answer) = both(&bare(0, Vec::new()));
    assert!(port.is_none_or(|port| port.is_ok_and(|listing| listing.widest.is_none())));
    assert_eq!(answer.cost.unwrap().log2_max, f64::NEG_INFINITY);
    let tree = ContractionTree { n_leaves: 1, children: Vec::new() };
    assert_eq!(path::tree_cost(&hypergraph(&network(&[], &[&[]])), &tree, &[]).log2flops, [f64::NEG_INFINITY]);
    if port::AT_HAND {
        let given = Given::new(&bare(1, Vec::new()));
        let mut lent = Lent::new(&given, 0);
        assert_eq!((crate::memory::tree_cost(&given, &mut lent), lent.works), (0, vec![0]));
    }
}

#[test]
fn greedy_takes_an_empty_table_first() {
    let tree = path::greedy(&hypergraph(&network(&[0], &[&[0], &[]])), &GreedyParams::default(), 0);
    assert_eq!(tree.children, [[1, 0]]);
}

#[test]
fn bisection_takes_an_empty_table_first() {
    let network = network(&[0, 1], &[&[0], &[], &[1]]);
    let run = rust::bisection(&network, 200, 2, vec![0; 48]).unwrap();
    assert_eq!((run.children, run.taken, run.missed), (vec![[1, 0], [2, 3]], 48, 0));
    tell_if_missing();
    if port::AT_HAND {
        let ask = bisection::call::Ask { imbalance: 200, cutoff: 2, draws: &[0; 48] };
        let port = bisection::call::answer(&crate::lent::Given::new(&network), ask).unwrap();
        assert_eq!(port, bisection::Answer::Tree { children: vec![[0, 1], [2, 3]], taken: 48 });
    }
}

/// The port's improvement with no flags, k = 8, one pass and no limit, if the port is linked.
fn improved(network: &Network, tree: &Tree) -> Option<Result<Improved, u32>> {
    tell_if_missing();
    let ask = Ask { k: 8, passes: 1, limit: None };
    port::AT_HAND.then(|| call::answer(&Call { given: crate::lent::Given::new(network), flags: Vec::new(), ask }, tree).unwrap())
}

#[test]
fn improvement_raises_the_total_of_a_dangling_index() {
    let network = network(&[1, 1, 0], &[&[0], &[2], &[1]]);
    assert!(improved(&network, &vec![[1, 2], [3, 0]]).is_none_or(|port| port == Err(11)));
    let network = hypergraph(&network);
    let mut tree = ContractionTree { n_leaves: 3, children: vec![[1, 2], [3, 0]] };
    assert_eq!(total(&network, &tree), 4.0);
    assert_eq!(path::reconfigure(&network, &mut tree, &[], 8, None, 1), 1);
    assert_eq!(total(&network, &tree), 5.0);
}

#[test]
fn improvement_of_a_total_beyond() {
    let all: Vec<u16> = (0..7).collect();
    let network = Network { weights: vec![8, 8, 8, 8, 8, 8, 5], leaves: vec![all.clone(), vec![]], outputs: all };
    assert!(improved(&network, &vec![[0, 1]]).is_none_or(|port| port == Err(10)));
    let mut tree = ContractionTree { n_leaves: 2, children: vec![[0, 1]] };
    assert_eq!(path::reconfigure(&hypergraph(&network), &mut tree, &[], 8, None, 1), 0);
}

#[test]
fn bisection_takes_the_recorded_words_again() {
    let network = hypergraph(&practice_pedigree(64, 1));
    let params = BisectParams::default();
    draws::record();
    let recorded = path::bisection(&network, &params, 1);
    let words = draws::taken().words;
    assert!(recorded.is_valid() && words.len() > 1000);
    draws::lend(words.clone());
    let again = path::bisection(&network, &params, 2);
    let taken = draws::taken();
    assert_eq!((again, taken.words.len(), taken.missed), (recorded, words.len(), 0));
}
