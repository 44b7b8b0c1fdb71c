//! The port on a network in memory: the lists that are lent, and what stands in them afterwards.
#![cfg_attr(not(port), allow(dead_code))]

use crate::case::Case;
use crate::lent;
use crate::listing::{Listing, Total};
use crate::port;
use crate::rust::Cost;

/// The stated workspace and the words of a set.
const WORDS: usize = 4096;
const SET: usize = 4;
/// Places of each list past the stated ones, and what stands in a list before a call.
const SPARE: usize = 3;
const MARK: u16 = 0xa5a5;
const NO_ROOM: u32 = 7;

/// The lists that are read.
pub struct Given {
    pub network: lent::Given,
    pub flags: Vec<u8>,
    pub tree: Vec<u16>,
}

/// The lists that are written.
#[derive(Clone, PartialEq)]
pub struct Lent {
    pub words: Vec<u64>,
    pub sets: Vec<u64>,
    pub sizes: Vec<u16>,
    pub works: Vec<u16>,
    pub steps: Vec<u16>,
    pub answer: Vec<u64>,
}

impl Given {
    pub fn new(case: &Case) -> Self {
        Self {
            network: lent::Given::new(&case.network),
            flags: case.flags.iter().flatten().map(|&f| f as u8).collect(),
            tree: case.tree.iter().flatten().flatten().copied().collect(),
        }
    }

    fn nodes(&self) -> usize {
        (2 * self.network.leg_counts.len()).saturating_sub(1)
    }

    fn steps(&self) -> usize {
        self.network.leg_counts.len().saturating_sub(1)
    }
}

/// Prices a network in memory: the number of the refusal, or 0 and the price list.
pub fn tree_cost(given: &Given, lent: &mut Lent) -> u32 {
    let lent::Given { weights, leg_counts, legs, outputs } = &given.network;
    let Lent { words, sets, sizes, works, steps, answer } = lent;
    port::loqshyber_tree_cost(
        weights,
        leg_counts,
        legs,
        outputs,
        &given.flags,
        &given.tree,
        words,
        sets,
        sizes,
        works,
        steps,
        answer,
    )
}

impl Lent {
    /// Lists of the stated lengths and `spare` places more.
    pub fn new(given: &Given, spare: usize) -> Self {
        let wide = |count: usize| vec![MARK as u64; count + spare];
        let narrow = |count: usize| vec![MARK; count + spare];
        Self {
            words: wide(WORDS),
            sets: wide(SET * given.nodes()),
            sizes: narrow(given.nodes()),
            works: narrow(given.nodes()),
            steps: narrow(5 * given.steps()),
            answer: wide(4),
        }
    }

    /// One place less in the `k`-th list that has any.
    fn shorten(&mut self, k: usize) {
        let wide = [&mut self.words, &mut self.sets, &mut self.answer].map(|list| list as &mut dyn Shorten);
        let narrow = [&mut self.sizes, &mut self.works, &mut self.steps].map(|list| list as &mut dyn Shorten);
        let mut lists: Vec<_> = wide.into_iter().chain(narrow).filter(|list| list.places() > 0).collect();
        let count = lists.len();
        lists[k % count].shorten();
    }
}

trait Shorten {
    fn places(&self) -> usize;
    fn shorten(&mut self);
}

impl<T> Shorten for Vec<T> {
    fn places(&self) -> usize {
        self.len()
    }

    fn shorten(&mut self) {
        self.pop();
    }
}

/// What a listing's numbers, and zero words, leave of lists that were fresh. Sets and the leaves' sizes are as they came: the Rust decides on them.
fn expected(given: &Given, listing: &Listing, came: &Lent) -> Lent {
    let mut lent = Lent::new(given, SPARE);
    lent.words[..WORDS].fill(0);
    let leaf_count = given.network.leg_counts.len();
    lent.sets[..SET * given.nodes()].copy_from_slice(&came.sets[..SET * given.nodes()]);
    lent.sizes[..leaf_count].copy_from_slice(&came.sizes[..leaf_count]);
    lent.works[..leaf_count].fill(0);
    for (place, step) in lent.steps.chunks_mut(5).zip(&listing.steps) {
        place.copy_from_slice(&[step.node, step.left, step.right, step.work_bits, step.size_bits]);
        lent.sizes[step.node as usize] = step.size_bits;
        lent.works[step.node as usize] = step.work_bits;
    }
    let (kind, total) = match listing.total {
        Total::Exact(total) => (0, total),
        Total::Beyond => (1, 0),
    };
    let widest = listing.widest.map_or(0, |bits| bits as u64 + 1);
    lent.answer[..4].copy_from_slice(&[kind, total, widest, listing.slice_bits as u64]);
    lent
}

/// Each node's indices and size are the Rust's.
fn same_nodes(lent: &Lent, cost: &Cost) -> Result<(), String> {
    for (v, (indices, log2_size)) in cost.nodes.iter().enumerate() {
        let mut set = [0u64; SET];
        for &i in indices {
            set[i as usize / 64] |= 1 << (i % 64);
        }
        if lent.sets[SET * v..][..SET] != set {
            return Err(format!("in memory: node {v} lists other indices than {indices:?}"));
        }
        if (lent.sizes[v] as f64 - log2_size).abs() > 1e-9 {
            return Err(format!("in memory: size bits of node {v}: port {}, Rust {log2_size}", lent.sizes[v]));
        }
    }
    Ok(())
}

/// The answer in memory is the one of the file, no place past the stated ones is touched, and one place less is refused.
pub fn check(case: &Case, file: &Result<Listing, u32>, cost: Option<&Cost>) -> Result<(), String> {
    let given = Given::new(case);
    let fresh = Lent::new(&given, SPARE);
    let mut lent = fresh.clone();
    let refusal = tree_cost(&given, &mut lent);
    let want = match file {
        Ok(listing) => expected(&given, listing, &lent),
        Err(_) => Lent { words: [vec![0; WORDS], fresh.words[WORDS..].to_vec()].concat(), ..fresh },
    };
    let number = file.as_ref().err().copied().unwrap_or(0);
    if refusal != number {
        return Err(format!("in memory: refusal {refusal}, of the file {number}"));
    }
    if lent != want {
        return Err("in memory: other lists than the file's answer gives".into());
    }
    cost.map_or(Ok(()), |cost| same_nodes(&lent, cost))?;
    let mut short = Lent::new(&given, 0);
    short.shorten(given.network.weights.len() + given.tree.len() + given.flags.len());
    let before = short.clone();
    let refusal = tree_cost(&given, &mut short);
    if refusal != NO_ROOM || short != before {
        return Err(format!("in memory: a list one place short, and refusal {refusal}"));
    }
    Ok(())
}
