//! A word loaded while a library for Rust guards it, so often: what was found says which is next.
//!
//!   guards pins COUNT     crossbeam-epoch: pin, load, unpin
//!   guards swaps COUNT    arc-swap: load a guard, load a word, drop the guard
use arc_swap::ArcSwap;
use crossbeam_epoch::{pin, Atomic, Owned};
use std::sync::atomic::Ordering::SeqCst;

const WORDS: usize = 8_192;

fn table(count: u64) -> Vec<u64> {
    (0..WORDS as u64).map(|word| word.wrapping_mul(count)).collect()
}

fn pins(count: u64) -> u64 {
    let words: Atomic<Vec<u64>> = Atomic::from(Owned::new(table(count)));
    let mut joined: u64 = 0;
    for turn in 0..count {
        let guard = pin();
        // It is never replaced, so it is there.
        let found = unsafe { words.load(SeqCst, &guard).deref() };
        joined ^= found[joined.wrapping_add(turn) as usize % WORDS];
    }
    joined
}

fn swaps(count: u64) -> u64 {
    let words = ArcSwap::from_pointee(table(count));
    let mut joined: u64 = 0;
    for turn in 0..count {
        joined ^= words.load()[joined.wrapping_add(turn) as usize % WORDS];
    }
    joined
}

fn main() {
    let mut words = std::env::args().skip(1);
    let what = words.next().expect("a name");
    let count = words.next().and_then(|word| word.parse().ok()).expect("a count");
    let joined = match what.as_str() {
        "pins" => pins(count),
        "swaps" => swaps(count),
        _ => panic!("pins or swaps"),
    };
    println!("{joined}");
}
