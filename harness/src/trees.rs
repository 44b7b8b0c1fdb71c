//! Random trees: valid ones, numbered in any order, and broken ones.

use crate::case::Tree;
use crate::numbers::Numbers;

/// A valid tree over so many leaves.
pub fn valid(numbers: &mut Numbers, leaf_count: usize) -> Tree {
    if leaf_count < 2 {
        return Vec::new();
    }
    let kind = numbers.below(4);
    let mut open: Vec<u16> = (0..leaf_count as u16).collect();
    let mut tree = Tree::new();
    while open.len() > 1 {
        let at = match kind {
            0 => 0,
            1 => open.len() - 2,
            _ => numbers.below(open.len() - 1),
        };
        let left = open.remove(at);
        let right = open.remove(if kind == 3 { numbers.below(open.len()) } else { at });
        let node = (leaf_count + tree.len()) as u16;
        tree.push(if numbers.chance(1, 2) { [left, right] } else { [right, left] });
        // at the end: a balanced tree; in place: a comb, or a random one
        if kind == 0 {
            open.push(node);
        } else {
            open.insert(at.min(open.len()), node);
        }
    }
    if numbers.chance(1, 2) {
        renumber(numbers, &mut tree, leaf_count);
    }
    tree
}

/// Numbers the internal nodes but the root anew, so that children may have higher numbers than their parents.
fn renumber(numbers: &mut Numbers, tree: &mut Tree, leaf_count: usize) {
    let inner = tree.len();
    let mut place: Vec<usize> = (0..inner - 1).collect();
    numbers.shuffle(&mut place);
    place.push(inner - 1);
    let mut renumbered = vec![[0; 2]; inner];
    for (j, children) in tree.iter().enumerate() {
        renumbered[place[j]] = children.map(|v| match (v as usize).checked_sub(leaf_count) {
            Some(k) => (leaf_count + place[k]) as u16,
            None => v,
        });
    }
    *tree = renumbered;
}

/// How many trees there are over so many leaves, up to the order of children and the numbers of nodes: 1 × 3 × 5 × ..
pub fn shapes(leaf_count: usize) -> usize {
    (2..leaf_count).map(|k| 2 * k - 1).product()
}

/// The tree of shape `k`, with children in any order and nodes numbered in any: each leaf joins one of the nodes that are there before it.
pub fn of_shape(numbers: &mut Numbers, leaf_count: usize, k: usize) -> Tree {
    let mut rest = k;
    let mut tree = Tree::new();
    let mut root = 0;
    for leaf in 1..leaf_count {
        let at = rest % (2 * leaf - 1);
        rest /= 2 * leaf - 1;
        let joined = if at < leaf { at } else { leaf_count + at - leaf } as u16;
        let node = (leaf_count + tree.len()) as u16;
        match tree.as_flattened_mut().iter_mut().find(|child| **child == joined) {
            Some(child) => *child = node,
            None => root = node,
        }
        tree.push(if numbers.chance(1, 2) { [joined, leaf as u16] } else { [leaf as u16, joined] });
    }
    if let Some(last) = tree.len().checked_sub(1) {
        let (root, last) = (root, (leaf_count + last) as u16);
        tree.swap((root as usize) - leaf_count, last as usize - leaf_count);
        for child in tree.as_flattened_mut() {
            *child = if *child == last { root } else { *child };
        }
        renumber(numbers, &mut tree, leaf_count);
    }
    tree
}

/// A tree with some damage. Now and then it is still valid.
pub fn broken(numbers: &mut Numbers, leaf_count: usize) -> Tree {
    let mut tree = valid(numbers, leaf_count);
    let kind = numbers.below(8);
    if tree.is_empty() || kind == 0 {
        tree.push([0, numbers.below(leaf_count + 2) as u16]);
        return tree;
    }
    let (place, side) = (numbers.below(tree.len()), numbers.below(2));
    let (other, other_side) = (numbers.below(tree.len()), numbers.below(2));
    let root = 2 * leaf_count - 2;
    match kind {
        1 => {
            tree.remove(place);
        }
        2 => {
            let held = tree[place][side];
            tree[place][side] = tree[other][other_side];
            tree[other][other_side] = held;
        }
        3 => tree[place][side] = tree[other][other_side],
        4 => tree[place][side] = (root + 1 + numbers.below(3)).min(255) as u16,
        5 => tree[place][side] = numbers.pick(&[255, root as u16]),
        6 => tree[place][side] = (leaf_count + place) as u16,
        _ => tree[place][side] = numbers.below(root + 1) as u16,
    }
    tree
}

/// Every list of children of `leaf_count - 1` internal nodes with numbers below `end`.
pub fn all_lists(leaf_count: usize, end: u16) -> impl Iterator<Item = Tree> {
    let places = 2 * leaf_count.saturating_sub(1);
    let count = (end as usize).pow(places as u32);
    (0..count).map(move |k| {
        let mut rest = k;
        let mut digit = || {
            let d = rest % end as usize;
            rest /= end as usize;
            d as u16
        };
        (0..places / 2).map(|_| [digit(), digit()]).collect()
    })
}

#[cfg(test)]
mod tests {
    use super::*;
    use std::collections::HashSet;

    /// The leaf sets below the internal nodes.
    fn sets(tree: &Tree, leaf_count: usize) -> Vec<u32> {
        fn below(tree: &Tree, leaf_count: usize, v: u16, sets: &mut Vec<u32>) -> u32 {
            let Some(j) = (v as usize).checked_sub(leaf_count) else { return 1 << v };
            let set = tree[j].iter().map(|&child| below(tree, leaf_count, child, sets)).sum();
            sets.push(set);
            set
        }
        let mut sets = Vec::new();
        below(tree, leaf_count, (leaf_count + tree.len() - 1) as u16, &mut sets);
        sets.sort_unstable();
        sets
    }

    #[test]
    fn every_shape_once() {
        let mut numbers = Numbers::new(3);
        for leaf_count in 2..8 {
            let count = shapes(leaf_count);
            let made: HashSet<_> = (0..count).map(|k| sets(&of_shape(&mut numbers, leaf_count, k), leaf_count)).collect();
            assert_eq!(made.len(), count);
            assert!(made.iter().all(|sets| sets.len() == leaf_count - 1 && sets.contains(&((1 << leaf_count) - 1))));
        }
        assert_eq!(shapes(8), 135_135);
    }
}
