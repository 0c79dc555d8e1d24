//! Differential-testing oracle around the unchanged heap.rs, roots.rs and ty.rs: a `Machine` answers lines, one command each. See README.md.
// the stand-in derives of serde call nothing
#![allow(dead_code)]

include!(concat!(env!("OUT_DIR"), "/mods.rs"));

mod machine;
mod stand_ins;
use stand_ins::{exec, reflect, state};

pub use machine::Machine;

/// The slot limit of `alloc_from` (the one substituted line), of the thread's machine at work.
mod limit {
    use std::cell::Cell;
    thread_local!(static MAX: Cell<Option<u32>> = const { Cell::new(None) });
    pub fn set(max: Option<u32>) {
        MAX.with(|m| m.set(max));
    }
    pub fn max_index(whole: u32) -> u32 {
        MAX.with(|m| m.get()).unwrap_or(whole)
    }
}
