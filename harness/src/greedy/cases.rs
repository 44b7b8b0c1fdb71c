//! The networks that greedy is run on.

use super::Comparison;
use crate::case::{Network, LEAVES, LEGS};
use crate::large;
use crate::networks::{network, practice_pedigree, Shape, SHAPES};
use crate::numbers::Numbers;

/// The indices of a subset, given by its bits.
fn subset(bits: usize) -> Vec<u16> {
    (0..16).filter(|i| bits >> i & 1 == 1).collect()
}

/// Every network of so many leaves over the given weights.
fn every(leaf_count: usize, weights: &[u8]) -> impl Iterator<Item = Network> + '_ {
    let subsets = 1 << weights.len();
    (0..usize::pow(subsets, leaf_count as u32 + 1)).map(move |k| {
        let digit = |place: u32| subset(k / usize::pow(subsets, place) % subsets);
        let leaves = (0..leaf_count as u32).map(digit).collect();
        Network { weights: weights.to_vec(), leaves, outputs: digit(leaf_count as u32) }
    })
}

fn small(comparison: &mut Comparison) {
    for leaf_count in 0..4 {
        for weights in [&[][..], &[0], &[2], &[0, 0], &[0, 1], &[1, 2], &[0, 0, 1], &[0, 8, 3], &[1, 1, 1]] {
            every(leaf_count, weights).for_each(|network| comparison.run(&network));
        }
    }
    for weights in [&[0, 0][..], &[0, 1], &[1, 2], &[0, 1, 1]] {
        every(4, weights).for_each(|network| comparison.run(&network));
    }
    every(5, &[0, 1]).for_each(|network| comparison.run(&network));
    comparison.tally.tell("0 to 5 leaves, every network");
}

/// Weights that sum to so many bits.
fn weights_of(bits: usize) -> Vec<u8> {
    (0..bits).step_by(8).map(|k| (bits - k).min(8) as u8).collect()
}

/// Two leaves that share an index, whose merged table has so many bits; the shared index has one bit and is no output.
pub fn merging_to(bits: usize) -> Network {
    let mut weights = weights_of(bits);
    let shared = weights.len() as u16;
    weights.push(1);
    let outputs: Vec<u16> = (0..shared).collect();
    let (left, right) = outputs.split_at(outputs.len() / 2);
    let leaves = [left, right].map(|part| part.iter().copied().chain([shared]).collect()).to_vec();
    Network { weights, leaves, outputs }
}

/// Two leaves that share an index, the first a table of so many bits, of which none but `kept` are kept.
pub fn table_of(bits: usize, kept: bool) -> Network {
    let weights = weights_of(bits);
    let all: Vec<u16> = (0..weights.len() as u16).collect();
    let outputs = if kept { all.clone() } else { Vec::new() };
    Network { weights, leaves: vec![all, vec![0]], outputs }
}

/// Three leaves in a row: a pair of leaves makes under 40 bits, and what two of them make with the third has so many.
pub fn later(bits: usize) -> Network {
    let sixth = |k: usize| ((bits + k) / 6) as u8;
    let weights = (0..6).map(sixth).chain([1, 1]).collect();
    Network { weights, leaves: vec![vec![0, 1, 6], vec![2, 3, 6, 7], vec![4, 5, 7]], outputs: (0..6).collect() }
}

/// Networks on both sides of 40 bits.
pub fn wide() -> Vec<Network> {
    let mut networks = Vec::new();
    for bits in [38, 39, 40, 41, 42, 48] {
        networks.push(merging_to(bits));
        networks.push(table_of(bits, false));
        networks.push(table_of(bits, true));
        // no pair is scored, or the wide table is second, or the pair is scored after a merge only
        let mut alone = table_of(bits, false);
        alone.leaves[1].clear();
        networks.push(alone);
        let mut second = table_of(bits, false);
        second.leaves.swap(0, 1);
        networks.push(second);
        networks.push(later(bits));
    }
    networks
}

/// A network with the weights taken down to 0 and 1, most of them 0.
fn light(numbers: &mut Numbers, mut network: Network) -> Network {
    let rate = numbers.pick(&[1, 2, 8, 1000]);
    for weight in &mut network.weights {
        *weight = numbers.chance(1, rate) as u8 * (*weight).min(1);
    }
    network
}

/// Random networks of one shape, with any weights or with light ones.
fn random(comparison: &mut Comparison, numbers: &mut Numbers, shape: Shape, count: usize, is_light: bool) {
    for _ in 0..count {
        let mut network = large::case(numbers, shape).network;
        if is_light {
            network = light(numbers, network);
        }
        comparison.run(&network);
    }
    comparison.tally.tell(&format!("{shape:?}, random{}", if is_light { ", weights 0 and 1" } else { "" }));
}

/// Pedigrees of 2 to 64 animals, with weights of 2 and with others.
fn pedigrees(comparison: &mut Comparison, numbers: &mut Numbers, count: usize) {
    for k in 0..count {
        let mut network = practice_pedigree(2 + k % 63, 1 + k as u64);
        if k % 2 == 1 {
            network.weights.iter_mut().for_each(|weight| *weight = numbers.below(4) as u8);
        }
        if k % 3 == 2 {
            let most = network.leaves.len();
            network.leaves.truncate(1 + numbers.below(most));
        }
        comparison.run(&network);
    }
    comparison.tally.tell("practice pedigrees");
}

/// Leaves of 32 legs that all share: as many pairs as there can be.
fn full(comparison: &mut Comparison, numbers: &mut Numbers) {
    for k in 0..40 {
        let mut network = network(numbers, Shape::Dense, LEAVES);
        let most = (k % 4) as u8;
        network.weights.iter_mut().for_each(|weight| *weight = (*weight).min(most / 3));
        for leaf in &mut network.leaves {
            leaf.retain(|&i| i > 0);
            leaf.truncate(LEGS - 1);
            leaf.push(0);
        }
        comparison.run(&network);
    }
    comparison.tally.tell("128 leaves, all pairs share");
}

pub fn run(comparison: &mut Comparison, count: usize, seed: u64) {
    small(comparison);
    wide().iter().for_each(|network| comparison.run(network));
    comparison.tally.tell("about 40 bits");
    let mut numbers = Numbers::new(seed);
    for is_light in [false, true] {
        for (k, &shape) in SHAPES.iter().enumerate() {
            random(comparison, &mut numbers, shape, (count + k) / SHAPES.len(), is_light);
        }
    }
    pedigrees(comparison, &mut numbers, count / 10);
    full(comparison, &mut numbers);
}
