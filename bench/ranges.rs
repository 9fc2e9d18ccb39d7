//! Fills, copies and comparisons of slices of 64 MiB by Rust's own calls: the peer of those of segments.
use std::hint::black_box;

const SIZE: usize = 67_108_864;

fn last(bytes: &[u8]) -> u64 {
    u64::from_le_bytes(bytes[SIZE - 8..].try_into().unwrap())
}

fn fills(first: &mut [u8], count: u64) -> u64 {
    for turn in 0..count {
        black_box(&mut *first).fill(turn as u8);
    }
    last(first)
}

fn copies(source: &mut [u8], target: &mut [u8], count: u64) -> u64 {
    for turn in 0..count {
        source[SIZE - 8..].copy_from_slice(&turn.to_le_bytes());
        black_box(&mut *target).copy_from_slice(source);
    }
    last(target)
}

/// The index of the first byte that differs: equal chunks are passed over, as `==` of slices compares them fastest.
fn mismatch(first: &[u8], second: &[u8]) -> usize {
    let same = first.chunks(4096).zip(second.chunks(4096)).take_while(|(a, b)| a == b).count() * 4096;
    let rest = first[same..].iter().zip(&second[same..]);
    same + rest.take_while(|(a, b)| a == b).count()
}

fn mismatches(first: &mut [u8], second: &[u8], count: u64) -> u64 {
    first[SIZE - 1] = 1;
    (0..count).map(|_| mismatch(black_box(&*first), second) as u64).sum()
}

fn main() {
    let words: Vec<String> = std::env::args().skip(1).collect();
    let count: u64 = words[1].parse().unwrap();
    let mut bytes = vec![0u8; 2 * SIZE];
    let (first, second) = bytes.split_at_mut(SIZE);
    let answer = match words[0].as_str() {
        "fills" => fills(first, count),
        "copies" => copies(first, second, count),
        "mismatches" => mismatches(first, second, count),
        other => panic!("no loop {other}"),
    };
    println!("{answer}");
}
