//! How often each long of a file comes, by plain Rust, printed as `fmem group` prints it; and files of longs to count.
//!
//!   groups make WHICH            1,048,576 longs, lowest byte first: `differ`, `equal`, `eight` or `thousand` numbers, or
//!                                multiples of 65,536 (`pages`) or of 2,097,152 (`halves`), all different
//!   groups maps FILE THREADS     each thread counts a run of the values in a hash map of its own, which are then added
//!   groups table FILE THREADS    all threads claim places of one table of atomics, and count there
//!   groups bare FILE THREADS     a swap, a load and an add a value in one table, and nothing found
//!   groups mixed FILE THREADS    the same at the places that `fmem group` tries first
//!   groups begun FILE THREADS    what both begin with: the values, and a table of zeros

use std::collections::HashMap;
use std::io::{self, BufWriter, Read, Write};
use std::sync::atomic::{AtomicU64, Ordering::SeqCst};
use std::{env, fs, thread};

const VALUES: u64 = 1 << 20;
const GOLDEN: u64 = 0x9e37_79b9_7f4a_7c15;

fn number(which: &str, k: u64) -> u64 {
    match which {
        "differ" => (k + 1).wrapping_mul(GOLDEN),
        "equal" => 7,
        "eight" => k.wrapping_mul(GOLDEN) % 8,
        "thousand" => k.wrapping_mul(GOLDEN) % 1000,
        "pages" => k << 16,
        "halves" => k << 21,
        _ => panic!("no such numbers"),
    }
}

fn make(which: &str) -> io::Result<()> {
    let mut out = BufWriter::new(io::stdout().lock());
    for k in 0..VALUES {
        out.write_all(&number(which, k).to_le_bytes())?;
    }
    out.flush()
}

fn values(file: &str) -> Vec<i64> {
    let mut bytes = Vec::new();
    fs::File::open(file).and_then(|mut f| f.read_to_end(&mut bytes)).expect("a file");
    bytes.chunks_exact(8).map(|b| i64::from_le_bytes(b.try_into().unwrap())).collect()
}

fn runs(values: &[i64], threads: usize) -> Vec<&[i64]> {
    let n = values.len();
    (0..threads).map(|k| &values[n * k / threads..n * (k + 1) / threads]).collect()
}

fn print(mut groups: Vec<(i64, u64)>) -> io::Result<()> {
    groups.sort_unstable();
    let mut out = BufWriter::new(io::stdout().lock());
    let mut total = 0u64;
    for (number, count) in groups {
        writeln!(out, "{number} {count}")?;
        total += count;
    }
    writeln!(out, "total {total}")?;
    out.flush()
}

fn count(run: &[i64]) -> HashMap<i64, u64> {
    let mut map = HashMap::new();
    for &v in run {
        *map.entry(v).or_insert(0) += 1;
    }
    map
}

fn maps(values: &[i64], threads: usize) -> Vec<(i64, u64)> {
    let found: Vec<_> = thread::scope(|s| {
        let all: Vec<_> = runs(values, threads).into_iter().map(|run| s.spawn(move || count(run))).collect();
        all.into_iter().map(|t| t.join().unwrap()).collect()
    });
    let mut all = HashMap::new();
    for map in found {
        for (number, count) in map {
            *all.entry(number).or_insert(0) += count;
        }
    }
    all.into_iter().collect()
}

struct Table {
    words: Vec<AtomicU64>,
    shift: u32,
    mask: usize,
}

impl Table {
    fn of(values: usize) -> Table {
        let places = (2 * values).next_power_of_two();
        Table {
            words: (0..2 * places).map(|_| AtomicU64::new(0)).collect(),
            shift: 64 - places.trailing_zeros().max(1),
            mask: places - 1,
        }
    }

    fn first(&self, v: i64) -> usize {
        ((v as u64).wrapping_mul(GOLDEN) >> self.shift) as usize & self.mask
    }

    fn count(&self, values: &[i64], ordinal: usize) {
        let v = values[ordinal];
        let mut p = self.first(v);
        loop {
            let claim = self.words[2 * p].compare_exchange(0, ordinal as u64 + 1, SeqCst, SeqCst);
            if claim.is_ok_and(|_| true) || claim.is_err_and(|c| values[c as usize - 1] == v) {
                self.words[2 * p + 1].fetch_add(1, SeqCst);
                return;
            }
            p = (p + 1) & self.mask;
        }
    }

    /// A number's bits mixed and dealt to the places as `group` does.
    fn mixed(&self, v: i64) -> usize {
        let fold = |bits: u64| bits ^ (bits >> 33);
        let bits = fold(fold(v as u64).wrapping_mul(0xff51_afd7_ed55_8ccd)).wrapping_mul(0xc4ce_b9fe_1a85_ec53);
        ((u128::from(bits) * (self.mask as u128 + 1)) >> 64) as usize
    }

    fn steps(&self, p: usize) -> u64 {
        let found = self.words[2 * p].compare_exchange(0, 1, SeqCst, SeqCst).unwrap_or(0);
        let count = self.words[2 * p + 1].load(SeqCst);
        self.words[2 * p + 1].fetch_add(1, SeqCst);
        found ^ count
    }
}

#[derive(Clone, Copy)]
enum Loop {
    Counts,
    Bare,
    Mixed,
}

fn in_table(values: &[i64], threads: usize, way: Loop) -> Table {
    let table = Table::of(values.len());
    let n = values.len();
    thread::scope(|s| {
        for k in 0..threads {
            let table = &table;
            s.spawn(move || {
                let mut all = 0;
                for ordinal in n * k / threads..n * (k + 1) / threads {
                    match way {
                        Loop::Counts => table.count(values, ordinal),
                        Loop::Bare => all ^= table.steps(table.first(values[ordinal])),
                        Loop::Mixed => all ^= table.steps(table.mixed(values[ordinal])),
                    }
                }
                std::hint::black_box(all);
            });
        }
    });
    table
}

fn read(table: &Table, values: &[i64]) -> Vec<(i64, u64)> {
    let mut sums = HashMap::new();
    for pair in table.words.chunks_exact(2) {
        let claim = pair[0].load(SeqCst);
        if claim > 0 {
            *sums.entry(values[claim as usize - 1]).or_insert(0) += pair[1].load(SeqCst);
        }
    }
    sums.into_iter().collect()
}

fn main() -> io::Result<()> {
    let words: Vec<String> = env::args().skip(1).collect();
    if words[0] == "make" {
        return make(&words[1]);
    }
    let values = values(&words[1]);
    let threads = words[2].parse().expect("a number of threads");
    match words[0].as_str() {
        "maps" => print(maps(&values, threads)),
        "table" => print(read(&in_table(&values, threads, Loop::Counts), &values)),
        "bare" => Ok(drop(in_table(&values, threads, Loop::Bare))),
        "mixed" => Ok(drop(in_table(&values, threads, Loop::Mixed))),
        "begun" => Ok(drop(std::hint::black_box(Table::of(values.len())))),
        _ => panic!("no such counting"),
    }
}
