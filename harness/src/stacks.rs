//! How much stack each C function takes, on a pedigree of as many tables as there can be: in a thread of its own, whose stack is marked before, beyond
//! what a thread takes that calls nothing. What is reserved and never written isn't counted. A call that went past the stack's low end would meet a
//! page that may not be touched, and end the program.

use crate::case::{Case, Network, LEAVES};
use crate::lent::Given;
use crate::numbers::Numbers;
use crate::reconfigure::{bench::network, model};
use crate::{port, rust};
use std::ffi::c_void;
use std::process::ExitCode;

const STACK: usize = 1 << 20;
const MARK: u8 = 0xa5;
/// No entry may take more.
const MOST: usize = 256 << 10;
const TEXT: usize = 131_072;
/// What improvement takes at k = 12, which is the most that an entry takes.
const WORDS: usize = 4096 + (8 << 12);
const PAGE: usize = 4096;
/// What may be done with a page: nothing, or reading and writing.
const PROT_NONE: i32 = 0;
const PROT_READ_WRITE: i32 = 1 | 2;

/// The attributes of a thread, larger than any C library's.
#[repr(C, align(16))]
struct Attributes([u64; 16]);

type Start = extern "C" fn(*mut c_void) -> *mut c_void;

extern "C" {
    fn pthread_attr_init(attributes: *mut Attributes) -> i32;
    fn pthread_attr_setstack(attributes: *mut Attributes, stack: *mut c_void, size: usize) -> i32;
    fn pthread_create(thread: *mut usize, attributes: *const Attributes, start: Start, argument: *mut c_void) -> i32;
    fn pthread_join(thread: usize, answer: *mut *mut c_void) -> i32;
    fn mprotect(start: *mut c_void, size: usize, allowed: i32) -> i32;
}

#[repr(C, align(4096))]
struct Page([u8; PAGE]);

extern "C" fn start(argument: *mut c_void) -> *mut c_void {
    // SAFETY: `taken` lends the closure until the thread has ended
    let call = unsafe { &mut *argument.cast::<&mut dyn FnMut()>() };
    call();
    std::ptr::null_mut()
}

/// The bytes of the stack that a thread writes while it makes the call.
fn taken(call: &mut dyn FnMut()) -> usize {
    // the first page is the one below the stack
    let mut pages: Vec<Page> = (0..STACK / PAGE + 1).map(|_| Page([MARK; PAGE])).collect();
    let (below, stack) = pages.split_at_mut(1);
    let below: *mut c_void = below.as_mut_ptr().cast();
    let (mut attributes, mut thread, mut call) = (Attributes([0; 16]), 0usize, call);
    // SAFETY: the stack and the closure outlive the thread, which is joined here; the page below is touched by nothing else, and is as it was afterwards
    unsafe {
        assert_eq!(mprotect(below, PAGE, PROT_NONE), 0);
        assert_eq!(pthread_attr_init(&mut attributes), 0);
        assert_eq!(pthread_attr_setstack(&mut attributes, stack.as_mut_ptr().cast(), STACK), 0);
        assert_eq!(pthread_create(&mut thread, &attributes, start, (&mut call as *mut &mut dyn FnMut()).cast()), 0);
        assert_eq!(pthread_join(thread, std::ptr::null_mut()), 0);
        assert_eq!(mprotect(below, PAGE, PROT_READ_WRITE), 0);
    }
    STACK - stack.iter().flat_map(|page| page.0).take_while(|&byte| byte == MARK).count()
}

fn told(name: &str, empty: usize, mut call: impl FnMut()) -> bool {
    let bytes = taken(&mut call).saturating_sub(empty);
    println!("{name:<44} {:>8.1} KiB", bytes as f64 / 1024.0);
    bytes <= MOST
}

/// The file's bytes, with a target so many bits below the widest table of the tree.
fn file(case: &Case, tree: &[[u16; 2]], below: u32) -> Vec<u8> {
    let bits = model::price(&case.network, &tree.to_vec(), &[]).1.saturating_sub(below) as u8;
    case.file().into_iter().chain([6, 0, 1, bits]).collect()
}

fn greedy(given: &Given, tree: &mut [u16], words: &mut [u64]) -> u32 {
    port::loqshyber_greedy(&given.weights, &given.leg_counts, &given.legs, &given.outputs, tree, words)
}

fn priced(case: &Case, empty: usize) -> bool {
    let given = crate::memory::Given::new(case);
    let mut lent = crate::memory::Lent::new(&given, 0);
    let (file, mut out) = (case.file(), [0; crate::listing::MOST]);
    told("loqshyber_price", empty, || assert_eq!(port::loqshyber_price(&file, &mut out), 0))
        & told("loqshyber_tree_cost", empty, || assert_eq!(crate::memory::tree_cost(&given, &mut lent), 0))
}

fn planned(network: &Network, empty: usize) -> bool {
    let given = Given::new(network);
    let (mut tree, mut words, mut answer) = (vec![0; given.places()], vec![0; WORDS], [0; 2]);
    let mut numbers = Numbers::new(1);
    let draws: Vec<u64> = (0..100_000).map(|_| numbers.word()).collect();
    let mut fits = told("loqshyber_greedy", empty, || assert_eq!(greedy(&given, &mut tree, &mut words), 0));
    fits &= told("loqshyber_bisection, cutoff 2", empty, || {
        let Given { weights, leg_counts, legs, outputs } = &given;
        assert_eq!(
            port::loqshyber_bisection(
                weights,
                leg_counts,
                legs,
                outputs,
                &draws,
                &mut tree,
                &mut words,
                &mut answer[..1],
                200,
                2
            ),
            0
        )
    });
    assert_eq!(greedy(&given, &mut tree, &mut words), 0);
    let widest = model::price(network, &crate::lent::tree_of(&tree), &[]).1 as u16;
    let start = tree.clone();
    fits &= told("loqshyber_reconfigure, k = 12", empty, || {
        let Given { weights, leg_counts, legs, outputs } = &given;
        let answer = &mut answer[..];
        assert_eq!(
            port::loqshyber_reconfigure(weights, leg_counts, legs, outputs, &[], &mut tree, &mut words, answer, 12, 4, 65_536),
            0
        )
    });
    for (name, improving) in [("loqshyber_slice_tree", 0), ("loqshyber_slice_tree, with improvement", 1)] {
        let (mut tree, mut flags) = (start.clone(), vec![0; given.weights.len()]);
        fits &= told(name, empty, || {
            let Given { weights, leg_counts, legs, outputs } = &given;
            let (flags, answer, target) = (&mut flags, &mut answer[..], widest.saturating_sub(3));
            assert_eq!(
                port::loqshyber_slice_tree(
                    weights, leg_counts, legs, outputs, &mut tree, flags, &mut words, answer, improving, target
                ),
                0
            )
        });
    }
    fits
}

pub fn run() -> ExitCode {
    if !port::ready() {
        return ExitCode::FAILURE;
    }
    let mut case = Case { network: network(LEAVES), tree: None, flags: None };
    let Some(tree) = rust::greedy(&case) else { return ExitCode::FAILURE };
    let empty = taken(&mut || {});
    let mut out = vec![0; TEXT];
    let (plain, sliced) = (case.file(), file(&case, &tree, 3));
    let mut fits = told("loqshyber_plan", empty, || assert!(port::loqshyber_plan(&plain, &mut out) > 0));
    fits &= told("loqshyber_plan, with a target", empty, || assert!(port::loqshyber_plan(&sliced, &mut out) > 0));
    fits &= planned(&case.network, empty);
    case.tree = Some(tree);
    fits &= priced(&case, empty);
    println!("{}", if fits { "each within 256 KiB" } else { "NOT within 256 KiB" });
    ExitCode::from(!fits as u8)
}
