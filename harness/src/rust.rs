//! The Rust's answers: path.rs run on a case.
#![cfg_attr(not(path_rs), allow(dead_code))]

use crate::bisection::{Run, Settled};
use crate::case::{Case, Network, Tree};
use crate::timing::Call;

/// Whether path.rs is compiled in.
pub const AT_HAND: bool = cfg!(path_rs);

pub const MISSING: &str = "path.rs is not at hand (LOQSHYBER_PATH_RS): the comparison with the Rust is passed over";

/// What `is_valid` does with a tree.
#[derive(Clone, Copy, Debug, PartialEq, Eq)]
pub enum Validity {
    Valid,
    Invalid,
    /// It indexes past its list, as it does on a child above the root's number.
    Panics,
}

#[derive(Clone, Debug)]
pub struct Step {
    pub node: u16,
    pub left: u16,
    pub right: u16,
    pub log2_flops: f64,
    pub log2_size: f64,
}

/// `post_order` and `tree_cost` of a valid tree.
#[derive(Clone, Debug)]
pub struct Cost {
    /// The indices and the size of each node, leaves included.
    pub nodes: Vec<(Vec<u32>, f64)>,
    pub steps: Vec<Step>,
    pub log2_total: f64,
    pub log2_max: f64,
    pub log2_slices: f64,
}

/// What the Rust says of a case.
#[derive(Clone, Debug)]
pub struct Answer {
    pub validity: Validity,
    /// Of a valid tree.
    pub cost: Option<Cost>,
}

#[cfg(path_rs)]
pub use compiled::{
    bisection, bisection_time, greedy, greedy_call, plan_call, quiet_caught_panics, reconfigure, reconfigure_call,
    settled_bisection, slice, slice_call, tree_cost_call, valid_cost_call,
};

/// Runs path.rs, if it is at hand. A case without a tree is one with no internal node.
#[cfg(path_rs)]
pub fn answer(case: &Case) -> Option<Answer> {
    let input = compiled::Input::new(case);
    let validity = input.validity();
    Some(Answer { validity, cost: (validity == Validity::Valid).then(|| input.cost()) })
}

#[cfg(not(path_rs))]
pub use missing::{
    answer, bisection, bisection_time, greedy, greedy_call, plan_call, quiet_caught_panics, reconfigure, reconfigure_call,
    settled_bisection, slice, slice_call, tree_cost_call, valid_cost_call,
};

#[cfg(not(path_rs))]
mod missing {
    use super::*;

    pub fn answer(_case: &Case) -> Option<Answer> {
        None
    }

    pub fn greedy(_case: &Case) -> Option<Tree> {
        None
    }

    pub fn greedy_call<'a>(_case: &Case) -> Call<'a> {
        None
    }

    pub fn bisection(_network: &Network, _imbalance: u32, _cutoff: usize, _words: Vec<u64>) -> Option<Run> {
        None
    }

    pub fn settled_bisection(_network: &Network, _imbalance: u32, _cutoff: usize, _words: Vec<u64>) -> Option<Settled> {
        None
    }

    pub fn bisection_time(_network: &Network, _imbalance: u32, _cutoff: usize, _words: &[u64]) -> Option<f64> {
        None
    }

    pub fn reconfigure(_case: &Case, _k: usize, _limit: Option<f64>, _passes: usize) -> Option<(Tree, u64)> {
        None
    }

    pub fn slice(_case: &Case, _target: u16, _improving: bool) -> Option<(Tree, Vec<bool>)> {
        None
    }

    pub fn reconfigure_call<'a>(_case: &Case, _k: usize, _limit: Option<f64>, _passes: usize) -> Call<'a> {
        None
    }

    pub fn slice_call<'a>(_case: &Case, _target: u16, _improving: bool) -> Call<'a> {
        None
    }

    pub fn plan_call<'a>(_case: &Case, _target: Option<u8>) -> Call<'a> {
        None
    }

    pub fn quiet_caught_panics() {}

    pub fn tree_cost_call<'a>(_case: &Case) -> Call<'a> {
        None
    }

    pub fn valid_cost_call<'a>(_case: &Case) -> Call<'a> {
        None
    }
}

#[cfg(path_rs)]
mod compiled {
    use super::*;
    use crate::engine::path::{self, BisectParams, ContractionTree, GreedyParams, Hypergraph};
    use crate::engine::{self, settled};
    use rand::draws;
    use std::cell::Cell;
    use std::hint::black_box;
    use std::panic;

    thread_local!(static QUIET: Cell<bool> = const { Cell::new(false) });

    /// Keeps a panic that is caught from being printed.
    pub fn quiet_caught_panics() {
        let print = panic::take_hook();
        panic::set_hook(Box::new(move |info| {
            if !QUIET.get() {
                print(info);
            }
        }));
    }

    fn caught<T>(run: impl FnOnce() -> T + panic::UnwindSafe) -> Option<T> {
        QUIET.set(true);
        let result = panic::catch_unwind(run).ok();
        QUIET.set(false);
        result
    }

    /// A case as path.rs takes it.
    pub struct Input {
        pub network: Hypergraph,
        pub tree: ContractionTree,
        pub sliced: Vec<bool>,
    }

    fn wide(list: &[u16]) -> Vec<u32> {
        list.iter().map(|&i| i as u32).collect()
    }

    fn hypergraph(network: &Network) -> Hypergraph {
        Hypergraph::new(
            network.leaves.iter().map(|leaf| wide(leaf)).collect(),
            wide(&network.outputs),
            network.weights.iter().map(|&w| w as f64).collect(),
        )
    }

    impl Input {
        pub fn new(case: &Case) -> Self {
            let network = &case.network;
            let children = case.tree.iter().flatten().map(|pair| pair.map(u32::from)).collect();
            Self {
                network: hypergraph(network),
                tree: ContractionTree { n_leaves: network.leaves.len(), children },
                sliced: case.flags.clone().unwrap_or_default(),
            }
        }

        pub fn validity(&self) -> Validity {
            match caught(|| self.tree.is_valid()) {
                Some(true) => Validity::Valid,
                Some(false) => Validity::Invalid,
                None => Validity::Panics,
            }
        }

        /// The cost of a tree that is valid.
        pub fn cost(&self) -> Cost {
            let cost = path::tree_cost(&self.network, &self.tree, &self.sliced);
            let steps = self.tree.post_order().into_iter().map(|v| {
                let [left, right] = self.tree.kids(v).expect("an internal node");
                Step {
                    node: v as u16,
                    left: left as u16,
                    right: right as u16,
                    log2_flops: cost.log2flops[v as usize],
                    log2_size: cost.log2size[v as usize],
                }
            });
            Cost {
                steps: steps.collect(),
                nodes: cost.inds.into_iter().zip(cost.log2size).collect(),
                log2_total: cost.log2_total,
                log2_max: cost.log2_max,
                log2_slices: cost.log2_slices,
            }
        }
    }

    /// The tree of `greedy`, with no noise.
    pub fn greedy(case: &Case) -> Option<Tree> {
        let tree = path::greedy(&Input::new(case).network, &GreedyParams::default(), 0);
        Some(tree.children.iter().map(|pair| pair.map(|v| v as u16)).collect())
    }

    pub fn greedy_call<'a>(case: &Case) -> Call<'a> {
        let input = Input::new(case);
        Some(Box::new(move || {
            black_box(path::greedy(&input.network, &GreedyParams::default(), 0));
        }))
    }

    fn halving(imbalance: u32, cutoff: usize) -> BisectParams {
        BisectParams { imbalance: imbalance as f64 / 1000.0, cutoff, ..BisectParams::default() }
    }

    /// The tree of `bisection` with jitter 0, decay 0 and the imbalance in thousandths, its draws from the lent words.
    pub fn bisection(network: &Network, imbalance: u32, cutoff: usize, words: Vec<u64>) -> Option<Run> {
        draws::lend(words);
        let tree = path::bisection(&hypergraph(network), &halving(imbalance, cutoff), 0);
        let taken = draws::taken();
        Some(Run { children: tree.children, taken: taken.words.len(), missed: taken.missed })
    }

    /// The same of path.rs's settled copy.
    pub fn settled_bisection(network: &Network, imbalance: u32, cutoff: usize, words: Vec<u64>) -> Option<Settled> {
        let wide = |list: &Vec<u16>| list.iter().map(|&i| i as u32).collect();
        let weights = network.weights.iter().map(|&w| w as f64).collect();
        let network = settled::Hypergraph::new(network.leaves.iter().map(wide).collect(), wide(&network.outputs), weights);
        let params = settled::BisectParams { imbalance: imbalance as f64 / 1000.0, cutoff, ..settled::BisectParams::default() };
        engine::take_wide();
        draws::lend(words);
        let tree = settled::bisection(&network, &params, 0);
        let taken = draws::taken();
        let run = Run { children: tree.children, taken: taken.words.len(), missed: taken.missed };
        Some(Settled { run, wide_after: engine::take_wide() })
    }

    /// Microseconds of one `bisection` from these words.
    pub fn bisection_time(network: &Network, imbalance: u32, cutoff: usize, words: &[u64]) -> Option<f64> {
        let (network, params) = (hypergraph(network), halving(imbalance, cutoff));
        draws::lend(words.to_vec());
        let time = crate::timing::time(|| {
            black_box(path::bisection(black_box(&network), &params, 0));
        });
        assert_eq!(draws::taken().missed, 0);
        Some(time)
    }

    /// The tree that `reconfigure` leaves of a valid one, and its count of rebuilds.
    pub fn reconfigure(case: &Case, k: usize, limit: Option<f64>, passes: usize) -> Option<(Tree, u64)> {
        let mut input = Input::new(case);
        let rebuilt = path::reconfigure(&input.network, &mut input.tree, &input.sliced, k, limit, passes);
        Some((input.tree.children.iter().map(|pair| pair.map(|v| v as u16)).collect(), rebuilt as u64))
    }

    /// The tree and the flags that `slice_tree` leaves of a valid tree.
    pub fn slice(case: &Case, target: u16, improving: bool) -> Option<(Tree, Vec<bool>)> {
        let mut input = Input::new(case);
        let flags = path::slice_tree(&input.network, &mut input.tree, f64::from(target), improving);
        Some((input.tree.children.iter().map(|pair| pair.map(|v| v as u16)).collect(), flags))
    }

    pub fn slice_call<'a>(case: &Case, target: u16, improving: bool) -> Call<'a> {
        let input = Input::new(case);
        Some(Box::new(move || {
            let mut tree = input.tree.clone();
            black_box(path::slice_tree(&input.network, &mut tree, f64::from(target), improving));
        }))
    }

    pub fn reconfigure_call<'a>(case: &Case, k: usize, limit: Option<f64>, passes: usize) -> Call<'a> {
        let input = Input::new(case);
        Some(Box::new(move || {
            let mut tree = input.tree.clone();
            black_box(path::reconfigure(&input.network, &mut tree, &input.sliced, k, limit, passes));
        }))
    }

    /// The calls that the program `plan` makes: greedy, improvement, slicing to a target if there is one, pricing.
    pub fn plan_call<'a>(case: &Case, target: Option<u8>) -> Call<'a> {
        let input = Input::new(case);
        Some(Box::new(move || {
            let mut tree = path::greedy(&input.network, &GreedyParams::default(), 0);
            path::reconfigure(&input.network, &mut tree, &[], 8, None, 4);
            let sliced = target.map_or(Vec::new(), |bits| path::slice_tree(&input.network, &mut tree, bits.into(), true));
            black_box(path::tree_cost(&input.network, &tree, &sliced));
        }))
    }

    pub fn tree_cost_call<'a>(case: &Case) -> Call<'a> {
        let input = Input::new(case);
        Some(Box::new(move || {
            black_box(path::tree_cost(&input.network, &input.tree, &input.sliced));
        }))
    }

    pub fn valid_cost_call<'a>(case: &Case) -> Call<'a> {
        let input = Input::new(case);
        Some(Box::new(move || {
            assert!(black_box(&input.tree).is_valid());
            black_box(path::tree_cost(&input.network, &input.tree, &input.sliced));
        }))
    }
}
