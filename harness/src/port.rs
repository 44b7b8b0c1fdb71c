//! The port, through its C functions. A slice crosses the boundary as a pointer and a length.

/// Whether the port is linked in.
pub const AT_HAND: bool = cfg!(port);

pub const MISSING: &str = "the port is not linked: run `rt lib` in crates/host, and build again";

/// C functions of the port: slices that are read, then slices that are written, then numbers.
macro_rules! c_functions {
    ($($(#[$doc:meta])* fn $name:ident($($read:ident: $r:ty),*; $($written:ident: $w:ty),*; $($number:ident: $n:ty),*) -> $answer:ty;)*) => {
        #[cfg(port)]
        mod c {
            extern "C" {
                $(pub fn $name($(_: *const $r, _: usize,)* $(_: *mut $w, _: usize,)* $(_: $n),*) -> $answer;)*
            }
        }
        $(
            $(#[$doc])*
            #[cfg(port)]
            #[allow(clippy::too_many_arguments)]
            pub fn $name($($read: &[$r],)* $($written: &mut [$w],)* $($number: $n),*) -> $answer {
                // SAFETY: each slice is as long as is said, none that is written overlaps another, and none is kept past the call
                unsafe { c::$name($($read.as_ptr(), $read.len(),)* $($written.as_mut_ptr(), $written.len(),)* $($number),*) }
            }

            #[cfg(not(port))]
            #[allow(clippy::too_many_arguments)]
            pub fn $name($(_: &[$r],)* $(_: &mut [$w],)* $(_: $n),*) -> $answer {
                panic!("{MISSING}")
            }
        )*
    };
}

c_functions! {
    /// Prices the plan of a network file: the number of the refusal, or 0 and a listing in `out`.
    fn loqshyber_price(file: u8; out: u8;) -> u32;
    /// What the program `plan` prints for a file: its text to the front of `out`, and its length.
    fn loqshyber_plan(file: u8; out: u8;) -> usize;
    /// Prices a network in memory: the number of the refusal, or 0 and the price list.
    fn loqshyber_tree_cost(weights: u8, leg_counts: u8, legs: u16, outputs: u16, flags: u8, tree: u16;
        words: u64, sets: u64, sizes: u16, works: u16, steps: u16, answer: u64;) -> u32;
    /// The number of the refusal, or 0 and the children at the front of `tree`.
    fn loqshyber_greedy(weights: u8, leg_counts: u8, legs: u16, outputs: u16; tree: u16, words: u64;) -> u32;
    /// The number of the refusal, or 0, the children at the front of `tree` and the words taken in `answer`.
    fn loqshyber_bisection(weights: u8, leg_counts: u8, legs: u16, outputs: u16, draws: u64;
        tree: u16, words: u64, answer: u64; imbalance: usize, cutoff: usize) -> u32;
    /// The number of the refusal, or 0, the children in `tree` and both counts in `answer`.
    fn loqshyber_reconfigure(weights: u8, leg_counts: u8, legs: u16, outputs: u16, flags: u8;
        tree: u16, words: u64, answer: u64; k: usize, passes: usize, limit: u32) -> u32;
    /// The number of the refusal, or 0, the children in `tree`, the flags, and both counts in `answer`.
    fn loqshyber_slice_tree(weights: u8, leg_counts: u8, legs: u16, outputs: u16;
        tree: u16, flags: u8, words: u64, answer: u64; improving: u32, target: u16) -> u32;
}

/// Says what is not at hand, and whether the port is.
pub fn ready() -> bool {
    if !AT_HAND {
        println!("{MISSING}");
    } else if !crate::rust::AT_HAND {
        println!("{}", crate::rust::MISSING);
    }
    AT_HAND
}
