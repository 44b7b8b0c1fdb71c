//! A sample of the Rust's greedy trees, stored for the program `planneruns`, which needs no Rust.
//!
//! Its input: a 4-byte count; for each case a 4-byte length and so many bytes of a network file without a tree; high bytes first. Its output, a
//! line a case: `plan` and the left and the right child of each node, or `refused K`.
//!
//! A tree is stored only if path.rs and the second reading agree on it: networks whose rest the Rust orders by −0.0 are passed over. path.rs
//! refuses nothing, so `refused 12` stands by the second reading alone.

use super::model::{self, Rest};
use super::{cases, rust_tree};
use crate::case::{Case, Network, Tree};
use crate::large;
use crate::networks::{practice_pedigree, SHAPES};
use crate::numbers::Numbers;

const SEED: u64 = 2027;
/// Networks of each shape, and practice pedigrees.
const EACH: usize = 40;

fn networks() -> Vec<Network> {
    let mut numbers = Numbers::new(SEED);
    let mut networks = cases::wide();
    for shape in SHAPES {
        networks.extend((0..EACH).map(|_| large::case(&mut numbers, shape).network));
    }
    networks.extend((0..EACH).map(|k| practice_pedigree(2 + k * 62 / (EACH - 1), 1 + k as u64)));
    networks
}

fn line(tree: &Tree) -> String {
    tree.as_flattened().iter().fold("plan".into(), |text, child| format!("{text} {child}"))
}

/// The program's input and output on these cases; none without path.rs.
pub fn sample() -> Option<(Vec<u8>, String)> {
    let (mut count, mut passed) = (0u32, 0);
    let (mut files, mut output) = (Vec::new(), String::new());
    for network in networks() {
        let (rust, _) = rust_tree(&network)?;
        let answer = match model::greedy(&network, Rest::WholeBits) {
            Err(_) => "refused 12".into(),
            Ok(tree) if tree == rust => line(&tree),
            Ok(_) => {
                passed += 1;
                continue;
            }
        };
        let file = Case { network, tree: None, flags: None }.file();
        files.extend((file.len() as u32).to_be_bytes());
        files.extend(file);
        output += &(answer + "\n");
        count += 1;
    }
    println!("greedy: {count} cases, {passed} networks passed over");
    Some(([&count.to_be_bytes()[..], &files].concat(), output))
}
