//! The bare steps of a visit to an arena of a pool: a mark is stored, a word is loaded, the mark is cleared. Each is
//! sequentially consistent. Nothing is checked: it is what a visit that does check is measured against.
//!
//!   marks gates COUNT    words of one arena
//!   marks nexts COUNT    its words one after another
//!   marks hops COUNT     words of 64 arenas: what was found says which arena is next, too
use std::hint::black_box;
use std::sync::atomic::{AtomicU64, Ordering::SeqCst};

const WORDS: usize = 8_192;
const SHARE: usize = 128;

/// What the name of an arena tells at least: its mark, and where its words begin.
struct Arena {
    mark: u64,
    first: usize,
}

#[inline(never)]
fn gates(words: &[AtomicU64], mark: &AtomicU64, count: u64) -> u64 {
    let mut joined: u64 = 0;
    for turn in 0..count {
        mark.store(1 << 32, SeqCst);
        joined ^= words[joined.wrapping_add(turn) as usize % WORDS].load(SeqCst);
        mark.store(0, SeqCst);
    }
    joined
}

#[inline(never)]
fn nexts(words: &[AtomicU64], mark: &AtomicU64, count: u64) -> u64 {
    let mut joined: u64 = 0;
    for _ in 0..count / WORDS as u64 {
        for word in words {
            mark.store(1 << 32, SeqCst);
            joined = joined.wrapping_add(word.load(SeqCst));
            mark.store(0, SeqCst);
        }
    }
    joined
}

#[inline(never)]
fn hops(words: &[AtomicU64], arenas: &[Arena], mark: &AtomicU64, count: u64) -> u64 {
    let mut joined: u64 = 0;
    for turn in 0..count {
        let word = joined.wrapping_add(turn) as usize % WORDS;
        let arena = &arenas[word / SHARE];
        mark.store(arena.mark, SeqCst);
        joined ^= words[arena.first + word % SHARE].load(SeqCst);
        mark.store(0, SeqCst);
    }
    joined
}

fn main() {
    let mut asked = std::env::args().skip(1);
    let what = asked.next().expect("a name");
    let count = asked.next().and_then(|word| word.parse().ok()).expect("a count");
    let words: Vec<AtomicU64> = (0..WORDS as u64).map(|word| AtomicU64::new(word.wrapping_mul(count))).collect();
    let arena = |slot| Arena { mark: (slot as u64 + 1) << 32, first: slot * SHARE };
    let arenas: Vec<Arena> = (0..WORDS / SHARE).map(arena).collect();
    let mark = black_box(AtomicU64::new(0));
    let joined = match what.as_str() {
        "gates" => gates(&words, &mark, count),
        "nexts" => nexts(&words, &mark, count),
        "hops" => hops(&words, &arenas, &mark, count),
        _ => panic!("gates, nexts or hops"),
    };
    println!("{joined}");
}
