//! The run for 22 families: a strain's plan and the direct sum, both run over whole-number tables; and for 41, a plan that leaves a table out.
//!
//! The strain is samples/strain-22.net with an index of one bit an animal, carrier or not: the direct sum has 2^28 terms. At 41 families and two bits
//! an animal it would have 2^98, and only a proof is left: there the plan that leaves a table out is handed in, and refused.

use crate::case::{Case, Network};
use crate::listing::MOST;
use crate::port;
use std::process::ExitCode;
use std::{fs, io};

const SAMPLES: &str = concat!(env!("CARGO_MANIFEST_DIR"), "/../samples");
/// No text is longer.
const TEXT: usize = 131_072;
const INVALID_TREE: u32 = 8;

/// The network of a file without tree, flags and target.
fn network(name: &str) -> io::Result<Network> {
    let file = fs::read(format!("{SAMPLES}/{name}.net"))?;
    let (mut network, mut rest) = (Network::default(), &file[..]);
    while let [tag, high, low, after @ ..] = rest {
        let (payload, next) = after.split_at(u16::from_be_bytes([*high, *low]) as usize);
        let numbers = || payload.iter().map(|&byte| byte.into()).collect();
        match tag {
            1 => network.weights = payload.to_vec(),
            2 => network.leaves.push(numbers()),
            3 => network.outputs = numbers(),
            _ => (),
        }
        rest = next;
    }
    Ok(network)
}

/// Tables of small whole numbers, one a leaf: an entry for each setting of its indices, the first index lowest.
fn tables(network: &Network) -> Vec<Vec<u128>> {
    let entry = |leaf: usize, cell: usize| 1 + (leaf * 7 + cell * 5 + leaf * cell) as u128 % 3;
    network.leaves.iter().enumerate().map(|(leaf, legs)| (0..1 << legs.len()).map(|cell| entry(leaf, cell)).collect()).collect()
}

/// The entry of a leaf's table where each animal is as `setting` has it, a bit an animal.
fn entry(network: &Network, tables: &[Vec<u128>], leaf: usize, setting: u64) -> u128 {
    let legs = network.leaves[leaf].iter().enumerate();
    tables[leaf][legs.map(|(place, &index)| ((setting >> index & 1) as usize) << place).sum::<usize>()]
}

/// The direct sum for each value of the one output: over all settings, the product of the entries of all tables.
fn direct(network: &Network, tables: &[Vec<u128>]) -> [u128; 2] {
    // a table's entry is known once its last index is set
    let mut ready = vec![Vec::new(); network.weights.len()];
    for (leaf, legs) in network.leaves.iter().enumerate() {
        ready[*legs.iter().max().expect("each leaf has an index") as usize].push(leaf);
    }
    let mut sums = [0; 2];
    let mut below = vec![(0, 0u64, 1u128)];
    while let Some((index, setting, product)) = below.pop() {
        if index == network.weights.len() {
            sums[(setting >> network.outputs[0] & 1) as usize] += product;
            continue;
        }
        for value in 0..2 {
            let setting = setting | value << index;
            let product = ready[index].iter().fold(product, |x, &leaf| x * entry(network, tables, leaf, setting));
            below.push((index + 1, setting, product));
        }
    }
    sums
}

/// A step of a printed plan.
struct Step {
    node: usize,
    left: usize,
    right: usize,
    kept: Vec<u16>,
}

/// What is printed: the steps and the sliced indices.
struct Printed {
    steps: Vec<Step>,
    sliced: Vec<u16>,
}

fn printed(text: &str) -> Option<Printed> {
    let mut plan = Printed { steps: Vec::new(), sliced: Vec::new() };
    for line in text.lines() {
        let (name, rest) = line.split_once(' ')?;
        let numbers: Vec<u16> = rest.split(' ').map_while(|word| word.parse().ok()).collect();
        match (name, &numbers[..]) {
            ("step", &[node, left, right, _, _, ref kept @ ..]) => {
                plan.steps.push(Step { node: node.into(), left: left.into(), right: right.into(), kept: kept.to_vec() })
            }
            ("slice", &[index]) => plan.sliced.push(index),
            ("refused", _) => return None,
            _ => (),
        }
    }
    Some(plan)
}

/// A table in the run: its indices, and its entries.
#[derive(Clone)]
struct Table {
    legs: Vec<u16>,
    entries: Vec<u128>,
}

impl Table {
    /// The entry where `legs` are set as the bits of `cell`.
    fn at(&self, legs: &[u16], cell: usize) -> u128 {
        let bit = |index: &u16| cell >> legs.iter().position(|x| x == index).expect("an index of the step") & 1;
        self.entries[self.legs.iter().enumerate().map(|(place, index)| bit(index) << place).sum::<usize>()]
    }

    /// The table with an index set to a value.
    fn fixed(&self, index: u16, value: usize) -> Self {
        if !self.legs.contains(&index) {
            return self.clone();
        }
        let legs: Vec<u16> = self.legs.iter().copied().filter(|&x| x != index).collect();
        let all: Vec<u16> = legs.iter().copied().chain([index]).collect();
        let entries = (0..1 << legs.len()).map(|cell| self.at(&all, cell | value << legs.len())).collect();
        Self { legs, entries }
    }
}

/// Two tables made one: over the kept indices, the rest summed.
fn step(left: &Table, right: &Table, kept: &[u16]) -> Table {
    let mut all = kept.to_vec();
    all.extend(left.legs.iter().chain(&right.legs).filter(|index| !kept.contains(index)));
    all.sort_unstable();
    all.dedup();
    all.sort_by_key(|index| !kept.contains(index));
    let mut entries = vec![0; 1 << kept.len()];
    for cell in 0..1 << all.len() {
        entries[cell & ((1 << kept.len()) - 1)] += left.at(&all, cell) * right.at(&all, cell);
    }
    Table { legs: kept.to_vec(), entries }
}

/// The run of the printed steps, added up over all values of the sliced indices: the sum for each value of the one output.
fn run(network: &Network, tables: &[Vec<u128>], plan: &Printed) -> [u128; 2] {
    let mut sums = [0; 2];
    for setting in 0..1usize << plan.sliced.len() {
        let fix = |table: Table| plan.sliced.iter().enumerate().fold(table, |t, (k, &index)| t.fixed(index, setting >> k & 1));
        let leaves = network.leaves.iter().zip(tables);
        let mut nodes: Vec<Option<Table>> =
            leaves.map(|(legs, entries)| Some(fix(Table { legs: legs.clone(), entries: entries.clone() }))).collect();
        nodes.resize(2 * network.leaves.len() - 1, None);
        for Step { node, left, right, kept } in &plan.steps {
            let kept: Vec<u16> = kept.iter().copied().filter(|index| !plan.sliced.contains(index)).collect();
            let [left, right] = [*left, *right].map(|child| nodes[child].take().expect("a table that is there"));
            nodes[*node] = Some(step(&left, &right, &kept));
        }
        let mut left = nodes.into_iter().flatten();
        let root = left.next().expect("the root's table");
        assert!(left.next().is_none() && root.legs == network.outputs, "another table is left, or the root has other indices");
        (0..2).for_each(|value| sums[value] += root.entries[value]);
    }
    sums
}

/// The text of the plan that the port prints, with a target or without.
fn plan(network: &Network, target: Option<u8>) -> String {
    let mut file = Case { network: network.clone(), tree: None, flags: None }.file();
    file.extend(target.iter().flat_map(|&bits| [6, 0, 1, bits]));
    let mut out = vec![0; TEXT];
    let length = port::loqshyber_plan(&file, &mut out);
    String::from_utf8_lossy(&out[..length]).into_owned()
}

/// 22 families: whether each plan's run gives the direct sum.
fn twenty_two() -> io::Result<bool> {
    let mut network = network("strain-22")?;
    network.weights.fill(1);
    let tables = tables(&network);
    let direct = direct(&network, &tables);
    println!("22 families, {} tables, {} indices of one bit", network.leaves.len(), network.weights.len());
    println!("  {:<44} {direct:?}", format!("direct sum, 2^{} terms:", network.weights.len()));
    let mut agree = true;
    for target in [None, Some(3)] {
        let plan = printed(&plan(&network, target)).ok_or_else(|| io::Error::other("the plan is refused"))?;
        let sums = run(&network, &tables, &plan);
        let name = target.map_or("plan".into(), |bits| format!("plan to {bits} bits"));
        let label = format!("{name}, {} steps, {} sliced:", plan.steps.len(), plan.sliced.len());
        println!("  {label:<44} {sums:?}");
        agree &= sums == direct && target.is_none_or(|_| !plan.sliced.is_empty());
    }
    Ok(agree)
}

/// 41 families: whether a plan that leaves a table out is refused 8, at whichever step, and the plan itself is not.
fn forty_one() -> io::Result<bool> {
    let network = network("strain-41")?;
    let plan = printed(&plan(&network, None)).ok_or_else(|| io::Error::other("the plan is refused"))?;
    let count = network.leaves.len();
    let mut tree = vec![[0; 2]; count - 1];
    for Step { node, left, right, .. } in &plan.steps {
        tree[node - count] = [*left as u16, *right as u16];
    }
    let price = |tree: &[[u16; 2]]| {
        let file = Case { network: network.clone(), tree: Some(tree.to_vec()), flags: None }.file();
        port::loqshyber_price(&file, &mut vec![0; MOST])
    };
    let whole = price(&tree);
    let mut refused = 0;
    for leaf in 0..count as u16 {
        // the step that takes the leaf takes another one's table in its place
        let mut wrong = tree.clone();
        let other = (leaf + 1) % count as u16;
        wrong.as_flattened_mut().iter_mut().filter(|child| **child == leaf).for_each(|child| *child = other);
        refused += (price(&wrong) == INVALID_TREE) as usize;
    }
    println!("41 families, {count} tables, {} indices of two bits", network.weights.len());
    println!("  the plan: number {whole}; {refused} of the {count} plans that leave one table out: refused {INVALID_TREE}");
    Ok(whole == 0 && refused == count)
}

pub fn run_both() -> ExitCode {
    if !port::AT_HAND {
        println!("{}", port::MISSING);
        return ExitCode::FAILURE;
    }
    match twenty_two().and_then(|agree| Ok(forty_one()? && agree)) {
        Ok(true) => ExitCode::SUCCESS,
        Ok(false) => {
            println!("NOT as it must be");
            ExitCode::FAILURE
        }
        Err(error) => {
            println!("samples: {error}");
            ExitCode::FAILURE
        }
    }
}
