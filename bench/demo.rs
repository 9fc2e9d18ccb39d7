//! A plain Rust program that makes the records of `fmem demo COUNT` and answers the same over them.
use std::io::Write as _;
use std::process::exit;

const SIZE: usize = 16;

fn made(count: u32) -> Vec<u8> {
    let mut bytes = Vec::with_capacity(count as usize * SIZE);
    for k in 0..count {
        let amount = (u64::from(k) * 7919 % 100_003) as i64 - 50_000;
        bytes.extend_from_slice(&k.to_le_bytes());
        bytes.extend_from_slice(&((k % 7) as u16).to_le_bytes());
        bytes.extend_from_slice(&[0; 2]);
        bytes.extend_from_slice(&amount.to_le_bytes());
    }
    bytes
}

fn id(r: &[u8]) -> i64 {
    i32::from_le_bytes(r[0..4].try_into().unwrap()).into()
}
fn kind(r: &[u8]) -> i64 {
    i16::from_le_bytes(r[4..6].try_into().unwrap()).into()
}
fn amount(r: &[u8]) -> i64 {
    i64::from_le_bytes(r[8..16].try_into().unwrap())
}

fn answers(bytes: &[u8]) -> String {
    let (mut sum, mut least, mut most) = (0i128, i64::MAX, i64::MIN);
    for n in bytes.chunks_exact(SIZE).map(amount) {
        sum += i128::from(n);
        least = least.min(n);
        most = most.max(n);
    }
    let (mut chosen, mut ids) = (0u64, 0i128);
    for r in bytes.chunks_exact(SIZE).filter(|r| kind(r) == 3) {
        chosen += 1;
        ids += i128::from(id(r));
    }
    let count = bytes.len() / SIZE;
    format!("count {count}\nsum(.amount) {sum}\nmin(.amount) {least}\nmax(.amount) {most}\ncount {chosen}\nsum(.id) {ids}\n")
}

fn main() {
    let Some(count) = std::env::args().nth(1).and_then(|n| n.parse().ok()) else { exit(1) };
    let text = answers(&made(count));
    if std::io::stdout().write_all(text.as_bytes()).is_err() {
        exit(8);
    }
}
