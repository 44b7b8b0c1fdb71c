//! A second reading of greedy, by the scope document alone: whole numbers, sets of indices, every pair scored once. It shares nothing with
//! path.rs or with the port, and it can order the unconnected rest in two ways, which tells what a difference comes from.

use crate::case::{Network, Tree};

/// How the unconnected rest is ordered. Both are stable.
#[derive(Clone, Copy, Debug, PartialEq, Eq)]
pub enum Rest {
    /// By size in whole bits.
    WholeBits,
    /// By size, and of size 0 the empty tables before the others: the order of f64 where an empty sum is −0.0.
    EmptyFirst,
}

type Set = [u64; 4];

fn each(a: &Set, b: &Set, f: impl Fn(u64, u64) -> u64) -> Set {
    std::array::from_fn(|k| f(a[k], b[k]))
}

fn set_of(list: &[u16]) -> Set {
    let mut set = [0; 4];
    for &i in list {
        set[i as usize / 64] |= 1 << (i % 64);
    }
    set
}

struct Table {
    /// The number of its node.
    node: u16,
    set: Set,
    bits: u32,
    /// The leaves below it.
    leaves: u128,
}

struct Pair {
    /// What the merge makes less what it takes.
    score: i128,
    first: usize,
    second: usize,
}

struct Model<'a> {
    network: &'a Network,
    outputs: Set,
    sets: Vec<Set>,
    /// By slot; `None` once it is merged.
    tables: Vec<Option<Table>>,
    pairs: Vec<Pair>,
    tree: Tree,
}

/// A scored pair has a table, or makes one, over 40 bits.
#[derive(Debug)]
pub struct TooWide;

const WIDEST: u32 = 40;

impl<'a> Model<'a> {
    fn new(network: &'a Network) -> Self {
        Self {
            network,
            outputs: set_of(&network.outputs),
            sets: network.leaves.iter().map(|leaf| set_of(leaf)).collect(),
            tables: Vec::new(),
            pairs: Vec::new(),
            tree: Tree::new(),
        }
    }

    fn bits(&self, set: &Set) -> u32 {
        let weights = self.network.weights.iter().enumerate();
        weights.filter(|(i, _)| set[i / 64] >> (i % 64) & 1 == 1).map(|(_, &w)| w as u32).sum()
    }

    /// What a table over so many leaves lists: an index below it that is an output or also stands in a leaf outside.
    fn table(&self, node: u16, leaves: u128) -> Table {
        let (mut below, mut outside) = ([0; 4], self.outputs);
        for (l, set) in self.sets.iter().enumerate() {
            let side = if leaves >> l & 1 == 1 { &mut below } else { &mut outside };
            *side = each(side, set, |a, b| a | b);
        }
        // a leaf lists all its indices
        let set = if leaves.count_ones() == 1 { below } else { each(&below, &outside, |a, b| a & b) };
        Table { node, bits: self.bits(&set), set, leaves }
    }

    /// Puts a table into the next slot and scores its pairs: of two of the start's tables the lower slot is first, else the new one.
    fn add(&mut self, table: Table, at_start: bool) -> Result<(), TooWide> {
        let new = self.tables.len();
        for slot in 0..new {
            let Some(other) = &self.tables[slot] else { continue };
            if each(&other.set, &table.set, |a, b| a & b) == [0; 4] {
                continue;
            }
            let merged = self.table(0, other.leaves | table.leaves).bits;
            if merged.max(other.bits).max(table.bits) > WIDEST {
                return Err(TooWide);
            }
            let score = (1i128 << merged) - (1i128 << other.bits) - (1i128 << table.bits);
            let (first, second) = if at_start { (slot, new) } else { (new, slot) };
            self.pairs.push(Pair { score, first, second });
        }
        self.tables.push(Some(table));
        Ok(())
    }

    fn join(&mut self, left: u16, right: u16) -> u16 {
        self.tree.push([left, right]);
        (self.sets.len() + self.tree.len() - 1) as u16
    }

    /// Merges the least pair until no two tables share an index.
    fn connect(&mut self) -> Result<(), TooWide> {
        for l in 0..self.sets.len() {
            self.add(self.table(l as u16, 1 << l), true)?;
        }
        loop {
            let tables = &self.tables;
            self.pairs.retain(|pair| tables[pair.first].is_some() && tables[pair.second].is_some());
            let Some(least) = self.pairs.iter().min_by_key(|pair| (pair.score, pair.first, pair.second)) else { return Ok(()) };
            let (first, second) = (least.first, least.second);
            let [left, right] = [first, second].map(|slot| self.tables[slot].take().expect("a live table"));
            let node = self.join(left.node, right.node);
            self.add(self.table(node, left.leaves | right.leaves), false)?;
        }
    }

    fn join_rest(&mut self, order: Rest) {
        let mut rest: Vec<Table> = self.tables.drain(..).flatten().collect();
        rest.sort_by_key(|table| (table.bits, order == Rest::EmptyFirst && table.set != [0; 4]));
        let mut rest = rest.iter();
        let Some(mut top) = rest.next().map(|table| table.node) else { return };
        for table in rest {
            top = self.join(top, table.node);
        }
    }
}

/// Greedy's tree.
pub fn greedy(network: &Network, rest: Rest) -> Result<Tree, TooWide> {
    let mut model = Model::new(network);
    model.connect()?;
    model.join_rest(rest);
    Ok(model.tree)
}
