//! A second reading of slicing in the scope document, in whole numbers, over that of improvement. It shares nothing with path.rs or the port.

use crate::case::{Network, Tree};
use crate::reconfigure::model::{self, holds, Ask, Reading};
use std::cmp::Reverse;

/// What is asked of a network and a valid tree.
#[derive(Clone, Copy, Debug)]
pub struct Target {
    pub bits: u16,
    pub improving: bool,
}

#[derive(Clone, Debug, PartialEq, Eq)]
pub struct Sliced {
    pub tree: Tree,
    pub flags: Vec<bool>,
    pub rebuilt: u64,
    pub tried: u64,
}

/// One pass, with k = 8.
const fn ask(limit: Option<u32>) -> Ask {
    Ask { k: 8, passes: 1, limit }
}

/// What ranks an index: its cost, the summed size of the tables above the target that list it, and its number.
type Rank = (u128, Reverse<u32>, usize);

/// The candidates by rank, the least first, if a table is above the target and has one.
fn ranks(network: &Network, sliced: &Sliced, target: u32) -> Vec<Rank> {
    let reading = Reading::new(network, &sliced.flags, ask(None));
    let prices = reading.prices(&sliced.tree);
    let sizes: Vec<u32> = prices.sets.iter().map(|&set| reading.weight(set)).collect();
    let touched = |i: usize| -> u32 {
        prices.sets.iter().zip(&sizes).filter(|&(&set, &size)| size > target && holds(set, i)).map(|(_, &size)| size).sum()
    };
    let work = |v: usize| 1u128 << prices.works[v];
    let total: u128 = prices.order.iter().map(|&v| work(v)).sum();
    let involved = |v: usize, i: usize| sliced.tree[v - network.leaves.len()].iter().any(|&u| holds(prices.sets[u as usize], i));
    let cost = |i: usize| {
        let part: u128 = prices.order.iter().filter(|&&v| involved(v, i)).map(|&v| work(v)).sum();
        (total - part << network.weights[i]) + part
    };
    let open =
        |&i: &usize| !network.outputs.contains(&(i as u16)) && !sliced.flags[i] && network.weights[i] > 0 && touched(i) > 0;
    let mut ranks: Vec<Rank> = (0..network.weights.len()).filter(open).map(|i| (cost(i), Reverse(touched(i)), i)).collect();
    ranks.sort_unstable();
    ranks
}

/// One index more is flagged; with improvement a pass follows.
fn flagged(network: &Network, mut sliced: Sliced, i: usize, target: Target) -> Result<Sliced, u32> {
    sliced.flags[i] = true;
    if target.improving {
        let limit = model::price(network, &sliced.tree, &sliced.flags).1.max(target.bits.into());
        let improved = model::improve(network, &sliced.tree, &sliced.flags, ask(Some(limit)))?;
        sliced.tree = improved.tree;
        sliced.rebuilt += improved.rebuilt;
        sliced.tried += improved.tried;
    }
    Ok(sliced)
}

/// Whether choices that are close lead to a tree and flags: at each turn one of those candidates is taken that the least undercuts by no more than
/// one part in 10^9.
fn leads(network: &Network, sliced: Sliced, target: Target, plan: &(Tree, Vec<bool>)) -> bool {
    let ranks = ranks(network, &sliced, target.bits.into());
    let Some(&least) = ranks.first() else { return sliced.tree == plan.0 && sliced.flags == plan.1 };
    let close = |rank: &&Rank| (rank.0 - least.0) * 1_000_000_000 <= rank.0 && plan.1[rank.2];
    let next = |rank: &Rank| flagged(network, sliced.clone(), rank.2, target);
    ranks.iter().filter(close).any(|rank| next(rank).is_ok_and(|sliced| leads(network, sliced, target, plan)))
}

/// Whether the Rust may answer so, where it has another answer.
pub fn is_close(network: &Network, tree: &Tree, target: Target, plan: &(Tree, Vec<bool>)) -> bool {
    leads(network, start(network, tree), target, plan)
}

fn start(network: &Network, tree: &Tree) -> Sliced {
    Sliced { tree: tree.clone(), flags: vec![false; network.weights.len()], rebuilt: 0, tried: 0 }
}

/// Slicing of a valid tree of an accepted network, or its refusal, 10 or 11.
pub fn slice(network: &Network, tree: &Tree, target: Target) -> Result<Sliced, u32> {
    let mut sliced = start(network, tree);
    if model::price(network, tree, &sliced.flags).0.is_none() {
        return Err(10);
    }
    if target.improving && Reading::new(network, &sliced.flags, ask(None)).dangling() {
        return Err(11);
    }
    while let Some(least) = ranks(network, &sliced, target.bits.into()).first() {
        sliced = flagged(network, sliced, least.2, target)?;
    }
    Ok(sliced)
}
