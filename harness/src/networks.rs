//! Random accepted networks of many shapes.

use crate::case::{Network, INDICES, LEGS, OUTPUTS, WEIGHT};
use crate::numbers::Numbers;

#[derive(Clone, Copy, Debug, PartialEq, Eq)]
pub enum Shape {
    /// Each leaf names a few indices of a common store.
    Mixed,
    /// A leaf for each animal with its parents, and one for the animal alone.
    Pedigree,
    /// Groups of leaves that share no index, empty leaves among them.
    Unconnected,
    /// Each leaf shares one index with the next.
    Chain,
    /// Some indices stand in every leaf.
    Hub,
    /// As many legs as there may be.
    Dense,
}

pub const SHAPES: [Shape; 6] = [Shape::Mixed, Shape::Pedigree, Shape::Unconnected, Shape::Chain, Shape::Hub, Shape::Dense];

/// An accepted network of so many leaves.
pub fn network(numbers: &mut Numbers, shape: Shape, leaf_count: usize) -> Network {
    let (index_count, leaves) = match shape {
        Shape::Mixed => mixed(numbers, leaf_count),
        Shape::Pedigree => pedigree_leaves(numbers, leaf_count),
        Shape::Unconnected => unconnected(numbers, leaf_count),
        Shape::Chain => chain(leaf_count),
        Shape::Hub => hub(numbers, leaf_count),
        Shape::Dense => dense(numbers, leaf_count),
    };
    // some indices that no leaf names
    let spare = if numbers.chance(1, 3) { numbers.below(4).min(INDICES - index_count) } else { 0 };
    let all = index_count + spare;
    let weights = weights(numbers, all);
    let outputs = outputs(numbers, index_count, all);
    Network { weights, leaves, outputs }
}

type Leaves = (usize, Vec<Vec<u16>>);

fn mixed(numbers: &mut Numbers, leaf_count: usize) -> Leaves {
    let index_count = numbers.below(INDICES.min(3 * leaf_count + 4) + 1);
    let most = numbers.pick(&[2, 4, 6]);
    let leaves = (0..leaf_count)
        .map(|_| {
            let count = numbers.below(most + 1);
            numbers.some(0, index_count, count)
        })
        .collect();
    (index_count, leaves)
}

fn pedigree_leaves(numbers: &mut Numbers, leaf_count: usize) -> Leaves {
    let animals = leaf_count.div_ceil(2);
    let mut leaves: Vec<Vec<u16>> = (0..animals)
        .map(|i| {
            let mut leaf = vec![i as u16];
            for _ in 0..2 {
                if i > 0 {
                    // most parents are of the last generations
                    let parent = if numbers.chance(2, 3) { i - 1 - numbers.below(i.min(8)) } else { numbers.below(i) } as u16;
                    if !leaf.contains(&parent) {
                        leaf.push(parent);
                    }
                }
            }
            leaf
        })
        .collect();
    leaves.extend((0..leaf_count - animals).map(|i| vec![i as u16]));
    (animals, leaves)
}

fn unconnected(numbers: &mut Numbers, leaf_count: usize) -> Leaves {
    let width = 1 + numbers.below(4);
    let groups = 1 + numbers.below(leaf_count.clamp(1, INDICES / width));
    let leaves = (0..leaf_count)
        .map(|_| {
            let start = width * numbers.below(groups);
            let count = numbers.below(width + 1);
            numbers.some(start, start + width, count)
        })
        .collect();
    (width * groups, leaves)
}

fn chain(leaf_count: usize) -> Leaves {
    (leaf_count + 1, (0..leaf_count).map(|i| vec![i as u16 + 1, i as u16]).collect())
}

fn hub(numbers: &mut Numbers, leaf_count: usize) -> Leaves {
    let shared = 1 + numbers.below(3);
    let leaves = (0..leaf_count)
        .map(|i| {
            let mut leaf: Vec<u16> = (0..shared as u16).collect();
            if numbers.chance(1, 2) {
                leaf.push((shared + i) as u16);
            }
            numbers.shuffle(&mut leaf);
            leaf
        })
        .collect();
    (shared + leaf_count, leaves)
}

fn dense(numbers: &mut Numbers, leaf_count: usize) -> Leaves {
    let index_count = numbers.pick(&[LEGS, 100, INDICES]);
    let leaves = (0..leaf_count)
        .map(|_| {
            let count = if numbers.chance(3, 4) { LEGS } else { numbers.below(LEGS) };
            numbers.some(0, index_count, count)
        })
        .collect();
    (index_count, leaves)
}

fn weights(numbers: &mut Numbers, count: usize) -> Vec<u8> {
    let kind = numbers.below(6);
    (0..count)
        .map(|_| match kind {
            0 => 1,
            1 => 2,
            2 => numbers.below(3) as u8,
            3 => (numbers.below(8) == 0) as u8 * WEIGHT,
            4 => WEIGHT,
            _ => numbers.below(WEIGHT as usize + 1) as u8,
        })
        .collect()
}

/// None, one, some or many; of the named indices or of all.
fn outputs(numbers: &mut Numbers, named: usize, all: usize) -> Vec<u16> {
    let most = numbers.pick(&[0, 0, 1, 2, 5, OUTPUTS]);
    let end = if numbers.chance(1, 2) { named } else { all };
    numbers.some(0, end, most)
}

/// The practice pedigree of so many animals, 2 to 64: all weights 2, the last animal the output, parents by xorshift64 from the seed.
pub fn practice_pedigree(animals: usize, seed: u64) -> Network {
    let mut state = seed;
    let mut parent = |below: usize| {
        state ^= state << 13;
        state ^= state >> 7;
        state ^= state << 17;
        (state % below as u64) as u16
    };
    let mut leaves = Vec::new();
    for i in 0..animals {
        let mut leaf = vec![i as u16];
        if i > 0 {
            let (first, second) = (parent(i), parent(i));
            leaf.push(first);
            if second != first {
                leaf.push(second);
            }
        }
        leaves.push(leaf);
    }
    leaves.extend((0..animals).map(|i| vec![i as u16]));
    Network { weights: vec![2; animals], leaves, outputs: vec![animals as u16 - 1] }
}

#[cfg(test)]
mod tests {
    use super::*;

    #[test]
    fn every_network_is_accepted() {
        let mut numbers = Numbers::new(5);
        for k in 0..6000 {
            let leaf_count = if k % 3 == 0 { numbers.below(129) } else { numbers.below(9) };
            let made = network(&mut numbers, SHAPES[k % SHAPES.len()], leaf_count);
            assert!(made.is_accepted() && made.leaves.len() == leaf_count, "{made:?}");
        }
        assert!(practice_pedigree(64, 1).is_accepted());
    }
}
