//! One case on both sides, and what is counted and told of many.

use crate::case::Case;
use crate::listing::{sum_of_powers, Listing, Total, MOST};
use crate::rust::{Answer, Cost, Validity};
use crate::tally::{ensure, Tally};
use crate::{memory, port, rust};
use std::fmt::Write;

/// How far apart logarithms may be.
const TOLERANCE: f64 = 1e-9;
const INVALID_TREE: u32 = 8;
const NO_ROOM: u32 = 7;
/// What stands in the buffer before a call.
const MARK: u8 = 0xa5;

/// What is counted. The cases in which the Rust's `is_valid` panics are among those that are not valid.
const KINDS: [&str; 6] = ["cases", "valid", "steps", "totals beyond", "not valid", "panics of is_valid"];

pub struct Comparison {
    pub tally: Tally,
}

type Checked = Result<(), String>;

fn close(name: &str, port: f64, rust: f64) -> Checked {
    ensure(port == rust || (port - rust).abs() <= TOLERANCE, || format!("{name}: port {port}, Rust {rust}"))
}

/// The port's answer. No byte is touched after a refusal, and none past a listing.
fn port_answer(file: &[u8]) -> Result<Result<Listing, u32>, String> {
    let mut out = [MARK; MOST + 8];
    let refusal = port::loqshyber_price(file, &mut out);
    let is_marked = |bytes: &[u8]| bytes.iter().all(|&b| b == MARK);
    if refusal != 0 {
        ensure(is_marked(&out), || format!("refused {refusal}, and the buffer is touched"))?;
        return Ok(Err(refusal));
    }
    let (listing, size) = Listing::decode(&out)?;
    ensure(is_marked(&out[size..]), || "bytes past the listing are touched".into())?;
    room(file, &out[..size])?;
    Ok(Ok(listing))
}

/// A buffer as long as the listing gets the same bytes; one byte less is refused.
fn room(file: &[u8], listing: &[u8]) -> Checked {
    let mut exact = vec![MARK; listing.len()];
    ensure(port::loqshyber_price(file, &mut exact) == 0 && exact == listing, || {
        "another answer in a buffer that just fits".into()
    })?;
    exact.fill(MARK);
    let short = listing.len() - 1;
    ensure(port::loqshyber_price(file, &mut exact[..short]) == NO_ROOM, || "no refusal 7 in a buffer one byte short".into())?;
    ensure(exact.iter().all(|&b| b == MARK), || "refused 7, and the buffer is touched".into())
}

/// What a listing must keep whatever the Rust says: the tree's own children, made before they are used; the total; the slice bits.
fn consistent(case: &Case, listing: &Listing) -> Checked {
    let leaf_count = case.network.leaves.len();
    let tree = case.tree.as_deref().unwrap_or_default();
    ensure(listing.steps.len() == tree.len(), || format!("{} steps", listing.steps.len()))?;
    let mut ready = vec![true; leaf_count];
    ready.resize(leaf_count + tree.len(), false);
    for step in &listing.steps {
        let place = (step.node as usize).wrapping_sub(leaf_count);
        ensure(tree.get(place) == Some(&[step.left, step.right]), || format!("no node of the tree: {step:?}"))?;
        for child in [step.left, step.right] {
            let was_ready = std::mem::take(&mut ready[child as usize]);
            ensure(was_ready, || format!("a child that is not there: {step:?}"))?;
        }
        ready[step.node as usize] = true;
    }
    let total = sum_of_powers(listing.steps.iter().map(|step| step.work_bits));
    ensure(listing.total == total, || format!("total {:?}, and the steps sum to {total:?}", listing.total))?;
    let flags = case.flags.as_deref().unwrap_or_default();
    let slice_bits: u16 = flags.iter().zip(&case.network.weights).map(|(&f, &w)| f as u16 * w as u16).sum();
    ensure(listing.slice_bits == slice_bits, || format!("slice bits {}, not {slice_bits}", listing.slice_bits))
}

fn same_total(listing: &Listing, rust: f64) -> Checked {
    match listing.total {
        Total::Exact(total) => close("total", (total as f64).log2(), rust),
        Total::Beyond => ensure(rust >= 53.0 - TOLERANCE, || format!("total: port beyond, Rust {rust}")),
    }
}

fn same_cost(listing: &Listing, cost: &Cost) -> Checked {
    ensure(listing.steps.len() == cost.steps.len(), || {
        format!("steps: port {}, Rust {}", listing.steps.len(), cost.steps.len())
    })?;
    for (port, rust) in listing.steps.iter().zip(&cost.steps) {
        let same = (port.node, port.left, port.right) == (rust.node, rust.left, rust.right);
        ensure(same, || format!("step order: port {port:?}, Rust {rust:?}"))?;
        close("work bits", port.work_bits as f64, rust.log2_flops)?;
        close("size bits", port.size_bits as f64, rust.log2_size)?;
    }
    same_total(listing, cost.log2_total)?;
    close("widest", listing.widest.map_or(f64::NEG_INFINITY, f64::from), cost.log2_max)?;
    close("slice bits", listing.slice_bits as f64, cost.log2_slices)
}

/// Compares the port's answer with the Rust's. Two or more leaves without a tree are refused.
fn same_answer(case: &Case, port: &Result<Listing, u32>, answer: &Answer) -> Checked {
    let known = answer.validity != Validity::Panics || case.has_child_above_root();
    ensure(known, || "is_valid panics, and no child is above the root's number".into())?;
    match (port, &answer.cost) {
        (Ok(listing), Some(cost)) => same_cost(listing, cost),
        (Err(INVALID_TREE), None) => Ok(()),
        (Ok(_), None) => Err(format!("is_valid: port true, Rust {:?}", answer.validity)),
        (Err(refusal), _) => Err(format!("port refused {refusal}, Rust {:?}", answer.validity)),
    }
}

impl Comparison {
    pub fn new() -> Self {
        Self { tally: Tally::new(&KINDS) }
    }

    /// Runs one case on the port and, if it is at hand, on the Rust.
    pub fn run(&mut self, case: &Case) {
        let file = case.file();
        let answer = rust::answer(case);
        let port = port_answer(&file);
        let result = port.as_ref().map_err(Clone::clone).and_then(|port| {
            if let Ok(listing) = port {
                consistent(case, listing)?;
            }
            answer.as_ref().map_or(Ok(()), |answer| same_answer(case, port, answer))?;
            memory::check(case, port, answer.as_ref().and_then(|answer| answer.cost.as_ref()))
        });
        if let Err(what) = result {
            self.tally.difference(what, hex(&file));
        }
        self.count(port.as_ref().ok(), answer.as_ref());
    }

    fn count(&mut self, port: Option<&Result<Listing, u32>>, answer: Option<&Answer>) {
        let tally = &mut self.tally;
        tally.one("cases");
        tally.add("panics of is_valid", answer.is_some_and(|answer| answer.validity == Validity::Panics) as u64);
        match port {
            Some(Ok(listing)) => {
                tally.one("valid");
                tally.add("steps", listing.steps.len() as u64);
                tally.add("totals beyond", (listing.total == Total::Beyond) as u64);
            }
            _ => tally.one("not valid"),
        }
    }
}

fn hex(bytes: &[u8]) -> String {
    bytes.iter().fold(String::new(), |mut text, b| {
        write!(text, "{b:02x}").expect("a string can be written");
        text
    })
}
