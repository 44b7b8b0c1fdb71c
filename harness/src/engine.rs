//! path.rs, compiled unchanged from where it lies, with the one name that it takes from the module above it; and its settled copy (build.rs).
#![allow(dead_code)]

use rand::draws;
use std::cell::Cell;

thread_local!(static WIDE: Cell<Option<usize>> = const { Cell::new(None) });

/// The settled copy scored a pair that is too wide: the words taken by then are noted, the first time, unless a draw was due past them.
fn meet_wide() {
    if WIDE.get().is_none() {
        WIDE.set(draws::so_far());
    }
}

/// What was noted since the last call.
pub fn take_wide() -> Option<usize> {
    WIDE.take()
}

/// What `Hypergraph::from_network` reads. Nothing here makes one.
pub mod network {
    pub struct Tensor {
        pub inds: Vec<u32>,
    }

    pub struct Network {
        pub tensors: Vec<Tensor>,
        pub output: Vec<u32>,
        pub dims: Vec<usize>,
    }
}

include!(concat!(env!("OUT_DIR"), "/engine.rs"));
