//! A plain Rust program that answers as `fmem query` and `fmem tally` do with several threads, over the orders of
//! `queries`: each thread has a run of the records.
//!
//! `crew sum FILE THREADS` sums the prices. `crew tally FILE THREADS` counts the tags in 256 counters that all threads
//! add to; `crew apart FILE THREADS` in counters of each thread's own, which are added at the end.
use std::fmt::Write as _;
use std::io::Write as _;
use std::process::exit;
use std::sync::atomic::{AtomicU64, Ordering};
use std::thread::scope;

const SIZE: usize = 24;

type Counts = [u64; 256];

/// The runs' answers, in their order.
fn each<T: Send>(bytes: &[u8], threads: usize, of: impl Fn(&[u8]) -> T + Sync) -> Vec<T> {
    let run = (bytes.len() / SIZE).div_ceil(threads).max(1) * SIZE;
    let of = &of;
    scope(|s| {
        let crew: Vec<_> = bytes.chunks(run).map(|run| s.spawn(move || of(run))).collect();
        crew.into_iter().map(|one| one.join().unwrap()).collect()
    })
}

fn sum(bytes: &[u8], threads: usize) -> String {
    let price = |r: &[u8]| i128::from(i64::from_le_bytes(r[8..16].try_into().unwrap()));
    let sums = each(bytes, threads, |run| run.chunks_exact(SIZE).map(price).sum::<i128>());
    format!("sum(.price) {}\n", sums.into_iter().sum::<i128>())
}

fn tags(run: &[u8]) -> impl Iterator<Item = usize> + '_ {
    run.chunks_exact(SIZE).flat_map(|r| r[16..20].iter().map(|b| usize::from(*b)))
}

fn tally(bytes: &[u8], threads: usize) -> Counts {
    let shared = [const { AtomicU64::new(0) }; 256];
    each(bytes, threads, |run| {
        tags(run).for_each(|tag| {
            shared[tag].fetch_add(1, Ordering::Relaxed);
        })
    });
    shared.map(AtomicU64::into_inner)
}

fn apart(bytes: &[u8], threads: usize) -> Counts {
    let own = each(bytes, threads, |run| {
        let mut counts = [0; 256];
        tags(run).for_each(|tag| counts[tag] += 1);
        counts
    });
    std::array::from_fn(|tag| own.iter().map(|counts| counts[tag]).sum())
}

fn printed(counts: Counts) -> String {
    let mut text = String::new();
    for number in i8::MIN..=i8::MAX {
        let count = counts[usize::from(number as u8)];
        if count > 0 {
            writeln!(text, "{number} {count}").unwrap();
        }
    }
    writeln!(text, "total {}", counts.iter().sum::<u64>()).unwrap();
    text
}

fn main() {
    let words: Vec<String> = std::env::args().skip(1).collect();
    let [how, file, threads] = &words[..] else { exit(1) };
    let (Ok(bytes), Ok(threads)) = (std::fs::read(file), threads.parse()) else { exit(3) };
    let text = match how.as_str() {
        "sum" => sum(&bytes, threads),
        "tally" => printed(tally(&bytes, threads)),
        "apart" => printed(apart(&bytes, threads)),
        _ => exit(1),
    };
    if std::io::stdout().write_all(text.as_bytes()).is_err() {
        exit(8);
    }
}
