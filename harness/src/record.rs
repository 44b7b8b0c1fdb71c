//! A sample of the Rust's answers, stored for the program `replay`, which needs no Rust.
//!
//! Its input: a 4-byte count; for each case a 4-byte length and so many bytes of a network file; high bytes first. Its output, a line a case:
//!
//!   refused K records file refused K
//!   refused K records refused K D
//!   priced S total T widest W bits B sum C records D
//!
//! S steps; T the total, or `beyond`; W the widest size in bits, or `-`; B slice bits. C is a sum over node, left, right, work bits and size
//! bits of each step: it starts with 0, and each number x takes it to (C * 65599 + x + 1) modulo 2^32. D is that sum over 127 records, the
//! steps in front and every other as it was before the call: 65535, 65534, 65533, 65532, 65531.

use crate::case::Case;
use crate::listing::{sum_of_powers, Total};
use crate::networks::SHAPES;
use crate::numbers::Numbers;
use crate::rust::{Answer, Cost, Step};
use crate::{edges, large, rust, trees};
use std::path::Path;
use std::{fs, io};

const SEED: u64 = 2026;
/// Cases of each shape.
const EACH: usize = 50;

/// A logarithm that is a whole number, as it is for sums of whole weights.
fn whole(log: f64) -> u16 {
    let near = log.round();
    assert!((log - near).abs() <= 1e-9 && (0.0..65536.0).contains(&near), "no whole number of bits: {log}");
    near as u16
}

type StepNumbers = [u16; 5];

/// A record before the call.
const UNSET: StepNumbers = [65535, 65534, 65533, 65532, 65531];
/// Records that are lent.
const RECORDS: usize = 127;

fn numbers_of(step: &Step) -> StepNumbers {
    [step.node, step.left, step.right, whole(step.log2_flops), whole(step.log2_size)]
}

fn sum(steps: impl Iterator<Item = StepNumbers>) -> u32 {
    steps.flatten().fold(0u32, |sum, x| sum.wrapping_mul(65599).wrapping_add(x as u32 + 1))
}

/// The sum over all records, with these steps in front.
fn records(steps: &[Step]) -> u32 {
    sum(steps.iter().map(numbers_of).chain(std::iter::repeat(UNSET)).take(RECORDS))
}

fn priced(cost: &Cost) -> String {
    // the Rust's own total is a rounded logarithm: the sum is taken over its steps, and must be near that
    let total = match sum_of_powers(cost.steps.iter().map(|s| whole(s.log2_flops))) {
        Total::Exact(total) => {
            let log = (total as f64).log2();
            assert!(log == cost.log2_total || (log - cost.log2_total).abs() <= 1e-9);
            total.to_string()
        }
        Total::Beyond => {
            assert!(cost.log2_total >= 53.0 - 1e-9);
            "beyond".into()
        }
    };
    let widest = if cost.log2_max == f64::NEG_INFINITY { "-".into() } else { whole(cost.log2_max).to_string() };
    let bits = whole(cost.log2_slices);
    let listed = sum(cost.steps.iter().map(numbers_of));
    format!("priced {} total {total} widest {widest} bits {bits} sum {listed} records {}", cost.steps.len(), records(&cost.steps))
}

/// A tree with a fault is refused with its file; a file without a tree is read, and pricing refuses.
fn refused(case: &Case) -> String {
    match case.tree {
        Some(_) => "refused 8 records file refused 8".into(),
        None => format!("refused 8 records refused 8 {}", records(&[])),
    }
}

fn line(case: &Case, answer: &Answer) -> String {
    answer.cost.as_ref().map_or_else(|| refused(case), priced)
}

/// The cases: at the edges of totals, and at random.
pub fn cases() -> Vec<Case> {
    let mut numbers = Numbers::new(SEED);
    let mut cases = edges::cases();
    for shape in SHAPES {
        for k in 0..EACH {
            let mut case = large::case(&mut numbers, shape);
            if k % 10 == 9 {
                case.tree = None;
            } else if k % 3 == 2 {
                case.tree = Some(trees::broken(&mut numbers, case.network.leaves.len()));
            }
            cases.push(case);
        }
    }
    cases
}

/// Writes `stdin` and `stdout` of the program.
pub fn run(folder: &Path) -> io::Result<()> {
    let cases = cases();
    let mut input = (cases.len() as u32).to_be_bytes().to_vec();
    let mut output = String::new();
    for case in &cases {
        let Some(answer) = rust::answer(case) else {
            println!("{}", rust::MISSING);
            return Ok(());
        };
        let file = case.file();
        input.extend((file.len() as u32).to_be_bytes());
        input.extend(file);
        output += &line(case, &answer);
        output.push('\n');
    }
    fs::create_dir_all(folder)?;
    fs::write(folder.join("stdin"), &input)?;
    fs::write(folder.join("stdout"), &output)?;
    println!("{} cases, {} bytes of input", cases.len(), input.len());
    Ok(())
}
