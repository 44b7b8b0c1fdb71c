//! Networks, settings and words for bisection.

use crate::case::{Network, LEAVES};
use crate::greedy;
use crate::networks::{network, practice_pedigree, Shape, SHAPES};
use crate::numbers::Numbers;

/// More words than any run was seen to take.
const MOST: usize = 32_000_000;
/// A dense network of many leaves takes millions of words: of so many questions on dense ones all but one have few leaves.
const DENSE: usize = 4;
const FEW_LEAVES: usize = 24;

/// What bisection is asked. Word k of the lent list, from 0 on, is (k + 1) × `step` modulo 2^64.
#[derive(Clone, Debug)]
pub struct Question {
    pub network: Network,
    pub imbalance: u32,
    pub cutoff: usize,
    pub step: u64,
}

impl Question {
    pub fn words(&self, count: usize) -> Vec<u64> {
        (1..=count as u64).map(|k| k.wrapping_mul(self.step)).collect()
    }

    /// Words that suffice.
    pub fn most(&self) -> usize {
        MOST.min(400_000 * self.network.leaves.len())
    }
}

/// Any imbalance, cutoff and words. A step of 0 or of a high power of two makes ties.
fn asked(numbers: &mut Numbers, network: Network) -> Question {
    let imbalance = match numbers.below(4) {
        0 => numbers.pick(&[0, 1, 2, 899, 900, 901, 999, 1000]),
        1 => 200,
        _ => numbers.below(1001) as u32,
    };
    let cutoff = numbers.pick(&[0, 1, 2, 2, 3, 4, 6, 12, 12, 20, 60, 200]);
    let step = match numbers.below(5) {
        0 => 0,
        1 => (1 << 62) + 1,
        _ => numbers.word() << 17 | 0x9_0001,
    };
    Question { network, imbalance, cutoff, step }
}

/// The `k`-th question: each shape in turn, now and then a pedigree; one in four with weights that are 0 for half of the indices.
pub fn random(numbers: &mut Numbers, k: usize, largest: usize) -> Question {
    let leaf_count = numbers.below(largest + 1);
    let mut network = if k % 50 == 49 && largest >= 4 {
        practice_pedigree((largest / 2).clamp(2, 64), k as u64)
    } else {
        network(numbers, SHAPES[k % SHAPES.len()], leaf_count)
    };
    if numbers.chance(1, 4) {
        network.weights.iter_mut().for_each(|w| *w *= numbers.below(2) as u8);
    }
    asked(numbers, network)
}

/// The same, with few leaves for most of the dense networks.
pub fn mostly_light(numbers: &mut Numbers, k: usize, largest: usize) -> Question {
    let (round, shape) = (k / SHAPES.len(), SHAPES[k % SHAPES.len()]);
    let few = shape == Shape::Dense && round % DENSE != 0;
    random(numbers, k, if few { largest.min(FEW_LEAVES) } else { largest })
}

/// A practice pedigree, whole or cut, with any settings.
pub fn pedigree(numbers: &mut Numbers, k: usize) -> Question {
    let mut network = practice_pedigree(2 + k % (LEAVES / 2 - 1), 1 + k as u64);
    if k % 3 == 2 {
        let most = network.leaves.len();
        network.leaves.truncate(1 + numbers.below(most));
    }
    asked(numbers, network)
}

/// Networks on both sides of 40 bits, with settings that halve them and that do not.
pub fn wide(numbers: &mut Numbers) -> Vec<Question> {
    greedy::wide_networks().into_iter().map(|network| asked(numbers, network)).collect()
}
