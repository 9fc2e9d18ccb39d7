//! The bare steps that calls on a word of a pool's arena consist of. Each is sequentially consistent. Nothing is checked:
//! it is what calls that do check are measured against.
//!
//!   words adds COUNT             additions to one word
//!   words swaps COUNT            exchanges of a word that is as expected
//!   words patches COUNT          a byte put into a word, by a load and a compare-exchange loop
//!   words beside COUNT THREADS   threads that store their mark, load one word, and clear it; marks lie side by side
//!   words apart COUNT THREADS    the same, of marks that lie 8 words apart
//!   words opens COUNT            64 bytes allocated and freed
//!   words wipes COUNT            1,048,576 words made 0, one after another
//!   words maps COUNT             1 MiB mapped and unmapped
//!   words grows COUNT            the same, with a byte stored into each 4,096 before it is unmapped
//!   words gives COUNT            additions of 8 to a count, each by a load and a compare-exchange
use std::alloc::{alloc, dealloc, Layout};
use std::ffi::c_void;
use std::hint::black_box;
use std::sync::atomic::{AtomicU64, Ordering::SeqCst};
use std::thread;

#[inline(never)]
fn adds(word: &AtomicU64, count: u64) -> u64 {
    let mut joined: u64 = 0;
    for turn in 0..count {
        joined ^= word.fetch_add(turn, SeqCst);
    }
    joined
}

#[inline(never)]
fn swaps(word: &AtomicU64, count: u64) -> u64 {
    let mut last: u64 = 0;
    for _ in 0..count {
        let next = last.wrapping_add(3);
        last = word.compare_exchange(last, next, SeqCst, SeqCst).map_or_else(|found| found, |_| next);
    }
    last
}

#[inline(never)]
fn patches(word: &AtomicU64, count: u64) -> u64 {
    let mut joined: u64 = 0;
    for turn in 0..count {
        let byte = [0x42, 0x24, 0xff, 0][turn as usize % 4];
        let mut old = word.load(SeqCst);
        while let Err(found) = word.compare_exchange(old, old & !0xff | byte, SeqCst, SeqCst) {
            old = found;
        }
        joined ^= old;
    }
    joined
}

#[inline(never)]
fn visits(word: &AtomicU64, mark: &AtomicU64, count: u64) -> u64 {
    let mut visits: u64 = 0;
    for _ in 0..count {
        mark.store(1 << 32, SeqCst);
        black_box(word.load(SeqCst));
        mark.store(0, SeqCst);
        visits += 1;
    }
    visits
}

fn crowd(count: u64, threads: usize, between: usize) -> u64 {
    let word = AtomicU64::new(0);
    let marks: Vec<AtomicU64> = (0..64).map(|_| AtomicU64::new(0)).collect();
    let work = |worker: usize| visits(&word, &marks[1 + worker * (between + 1)], count);
    thread::scope(|scope| {
        let work = &work;
        let started: Vec<_> = (0..threads).map(|worker| scope.spawn(move || work(worker))).collect();
        started.into_iter().map(|thread| thread.join().expect("a count")).sum()
    })
}

fn opens(count: u64) -> u64 {
    let layout = Layout::new::<[u64; 8]>();
    for _ in 0..count {
        let place = black_box(unsafe { alloc(layout) });
        unsafe { dealloc(place, layout) };
    }
    count
}

fn wipes(count: u64) -> u64 {
    let words: Vec<AtomicU64> = (0..1_048_576).map(|_| AtomicU64::new(0)).collect();
    for _ in 0..count {
        black_box(&words).iter().for_each(|word| word.store(0, SeqCst));
    }
    count
}

extern "C" {
    fn mmap(place: *mut c_void, bytes: usize, protection: i32, flags: i32, file: i32, offset: i64) -> *mut c_void;
    fn munmap(place: *mut c_void, bytes: usize) -> i32;
}

fn maps(count: u64, touched: bool) -> u64 {
    const BYTES: usize = 1 << 20;
    const READ_AND_WRITE: i32 = 3;
    const PRIVATE_WITHOUT_FILE: i32 = 0x22;
    for _ in 0..count {
        let place = unsafe { mmap(std::ptr::null_mut(), BYTES, READ_AND_WRITE, PRIVATE_WITHOUT_FILE, -1, 0) }.cast::<u8>();
        assert!(place as isize != -1, "no memory");
        if touched {
            (0..BYTES).step_by(4_096).for_each(|byte| unsafe { place.add(byte).write_volatile(1) });
        }
        assert!(unsafe { munmap(place.cast(), BYTES) } == 0, "not unmapped");
    }
    count
}

#[inline(never)]
fn gives(given: &AtomicU64, count: u64) -> u64 {
    for _ in 0..count {
        let mut found = given.load(SeqCst);
        while let Err(now) = given.compare_exchange(found, found + 8, SeqCst, SeqCst) {
            found = now;
        }
    }
    given.load(SeqCst) / 8
}

fn main() {
    let mut asked = std::env::args().skip(1);
    let what = asked.next().expect("a name");
    let count = asked.next().and_then(|word| word.parse().ok()).expect("a count");
    let threads = asked.next().map_or(1, |word| word.parse().expect("a number of threads"));
    let word = black_box(AtomicU64::new(0));
    let joined = match what.as_str() {
        "adds" => adds(&word, count),
        "swaps" => swaps(&word, count),
        "patches" => patches(&word, count),
        "beside" => crowd(count, threads, 0),
        "apart" => crowd(count, threads, 7),
        "opens" => opens(count),
        "wipes" => wipes(count),
        "maps" => maps(count, false),
        "grows" => maps(count, true),
        "gives" => gives(&word, count),
        _ => panic!("adds, swaps, patches, beside, apart, opens, wipes, maps, grows or gives"),
    };
    println!("{joined}");
}
