//! A case: a network, a tree over it and flags, and the network file that holds them.

/// The limits of an accepted network.
pub const LEAVES: usize = 128;
pub const INDICES: usize = 256;
pub const LEGS: usize = 32;
pub const OUTPUTS: usize = 32;
pub const WEIGHT: u8 = 8;

#[derive(Clone, Debug, Default, PartialEq, Eq)]
pub struct Network {
    /// Bits of each index: its dimension is 2 to that power.
    pub weights: Vec<u8>,
    /// The indices that each leaf names, in the file's order.
    pub leaves: Vec<Vec<u16>>,
    pub outputs: Vec<u16>,
}

/// Children of each internal node, numbers below 256; the root is the last.
pub type Tree = Vec<[u16; 2]>;

#[derive(Clone, Debug, Default)]
pub struct Case {
    pub network: Network,
    /// `None`: the file has no tree, which is not an empty tree.
    pub tree: Option<Tree>,
    pub flags: Option<Vec<bool>>,
}

fn is_index_list(list: &[u16], index_count: usize) -> bool {
    let mut sorted = list.to_vec();
    sorted.sort_unstable();
    sorted.dedup();
    sorted.len() == list.len() && sorted.iter().all(|&i| (i as usize) < index_count)
}

impl Network {
    pub fn is_accepted(&self) -> bool {
        let m = self.weights.len();
        m <= INDICES
            && self.leaves.len() <= LEAVES
            && self.outputs.len() <= OUTPUTS
            && self.weights.iter().all(|&w| w <= WEIGHT)
            && self.leaves.iter().all(|leaf| leaf.len() <= LEGS && is_index_list(leaf, m))
            && is_index_list(&self.outputs, m)
    }
}

fn put_field(file: &mut Vec<u8>, tag: u8, payload: &[u8]) {
    let size = u16::try_from(payload.len()).expect("a payload is below 65,536 bytes");
    file.push(tag);
    file.extend(size.to_be_bytes());
    file.extend(payload);
}

/// Numbers of indices or nodes, a byte each.
fn number_bytes(list: &[u16]) -> Vec<u8> {
    list.iter().map(|&i| u8::try_from(i).expect("a number below 256")).collect()
}

impl Case {
    /// Whether a node of the tree has a child above the root's number.
    pub fn has_child_above_root(&self) -> bool {
        let tree = self.tree.as_deref().unwrap_or_default();
        tree.as_flattened().iter().any(|&child| child as usize >= self.network.leaves.len() + tree.len())
    }

    /// The network file.
    pub fn file(&self) -> Vec<u8> {
        debug_assert!(self.network.is_accepted());
        let mut file = Vec::new();
        put_field(&mut file, 1, &self.network.weights);
        for leaf in &self.network.leaves {
            put_field(&mut file, 2, &number_bytes(leaf));
        }
        put_field(&mut file, 3, &number_bytes(&self.network.outputs));
        if let Some(tree) = &self.tree {
            put_field(&mut file, 4, &number_bytes(tree.as_flattened()));
        }
        if let Some(flags) = &self.flags {
            put_field(&mut file, 5, &flags.iter().map(|&f| f as u8).collect::<Vec<_>>());
        }
        file
    }
}

#[cfg(test)]
mod tests {
    use super::*;

    #[test]
    fn file_of_a_small_network() {
        let network = Network { weights: vec![1, 2, 1], leaves: vec![vec![0, 1], vec![1, 2], vec![2]], outputs: vec![0] };
        let case = Case { network, tree: Some(vec![[2, 1], [3, 0]]), flags: Some(vec![false, true]) };
        let expected =
            [1, 0, 3, 1, 2, 1, 2, 0, 2, 0, 1, 2, 0, 2, 1, 2, 2, 0, 1, 2, 3, 0, 1, 0, 4, 0, 4, 2, 1, 3, 0, 5, 0, 2, 0, 1];
        assert_eq!(case.file(), expected);
    }
}
