//! Records with a text each, and plain Rust that finds the texts: the peer of `fmem texts`, of `get_text` over a `Mono`, and
//! of a slicing allocator. A text ends at its field's first 0; it is UTF-8, or there is none.
//!
//!   texts records COUNT                 writes so many records of 32 bytes to the standard output: a field of 20 bytes from
//!                                       the fifth on has a text of 0 to 16 bytes and a 0; all else are other bytes
//!   texts lines SIZE AT ROOM FILE       prints a line for the text in `ROOM` bytes from `AT` on of each record of `SIZE`
//!                                       bytes, as `fmem texts` does
//!   texts texts TURNS FILE              makes a `String` of each text so often, and prints how many bytes they have in all
//!   texts slices COUNT                  cuts so many slices off 2^40 bytes, and prints the sum of the places where they begin
use std::io::{stdout, BufWriter, Result, Write};

const SIZE: usize = 32;
const AT: usize = 4;
const ROOM: usize = 20;
const PIECE: usize = 65_536;
const DIGITS: &[u8; 16] = b"0123456789abcdef";

/// 64 bits that look drawn.
fn mixed(n: u64) -> u64 {
    let n = (n ^ n >> 30).wrapping_mul(0xbf58_476d_1ce4_e5b9);
    let n = (n ^ n >> 27).wrapping_mul(0x94d0_49bb_1331_11eb);
    n ^ n >> 31
}

/// Letters, in each eighth record with an `é` in front.
fn text(k: u64) -> Vec<u8> {
    let length = (mixed(k) % 17) as usize;
    let letters = (0..).map(|n| b'a' + (mixed(k + n) % 26) as u8);
    let front: &[u8] = if k % 8 == 0 && length > 1 { "é".as_bytes() } else { b"" };
    front.iter().copied().chain(letters).take(length).collect()
}

fn records(count: u64) -> Result<()> {
    let mut out = BufWriter::new(stdout().lock());
    for k in 0..count {
        let mut record: Vec<u8> = (0..4).flat_map(|n| mixed(4 * k + n).to_le_bytes()).collect();
        let text = text(k);
        let end = AT + text.len();
        record[AT..end].copy_from_slice(&text);
        record[end] = 0;
        out.write_all(&record)?;
    }
    out.flush()
}

/// Why a field has no text.
enum Refusal {
    NoZero,
    NotText(usize),
}

/// The text of the bytes before the first 0.
fn text_of(field: &[u8]) -> std::result::Result<&str, Refusal> {
    let end = field.iter().position(|byte| *byte == 0).ok_or(Refusal::NoZero)?;
    std::str::from_utf8(&field[..end]).map_err(|error| Refusal::NotText(error.valid_up_to()))
}

fn push_line(pending: &mut Vec<u8>, field: &[u8]) -> Result<()> {
    match text_of(field) {
        Ok("") => pending.extend_from_slice(b"text"),
        Ok(text) => {
            pending.extend_from_slice(b"text ");
            pending.extend(text.bytes().flat_map(|byte| [DIGITS[usize::from(byte >> 4)], DIGITS[usize::from(byte & 15)]]));
        }
        Err(Refusal::NoZero) => pending.extend_from_slice(b"refused 61"),
        Err(Refusal::NotText(front)) => write!(pending, "refused 60 {front}")?,
    }
    pending.push(b'\n');
    Ok(())
}

fn lines(size: usize, at: usize, room: usize, bytes: &[u8]) -> Result<()> {
    let mut out = stdout().lock();
    let mut pending = Vec::new();
    for record in bytes.chunks_exact(size) {
        push_line(&mut pending, &record[at..at + room])?;
        if pending.len() >= PIECE {
            out.write_all(&pending)?;
            pending.clear();
        }
    }
    out.write_all(&pending)
}

fn texts(turns: u64, bytes: &[u8]) -> u64 {
    let mut sum = 0;
    for _ in 0..turns {
        for record in bytes.chunks_exact(SIZE) {
            if let Ok(text) = text_of(&record[AT..AT + ROOM]) {
                sum += std::hint::black_box(text.to_string()).len() as u64;
            }
        }
    }
    sum
}

/// Where the next slice begins, and how many bytes are behind it then; none where `align` is no power of two, or the bytes
/// pass the end.
fn slice(used: u64, size: u64, align: u64, end: u64) -> Option<(u64, u64)> {
    if !align.is_power_of_two() {
        return None;
    }
    let place = used.checked_add(align - 1)? & !(align - 1);
    let behind = place.checked_add(size)?;
    (behind <= end).then_some((place, behind))
}

fn slices(count: u64) -> u64 {
    let (mut sum, mut used) = (0u64, 0);
    for turn in 0..count {
        let Some((place, behind)) = slice(used, turn % 8, 1 << (turn % 4), 1 << 40) else { break };
        used = behind;
        sum = sum.wrapping_add(place);
    }
    sum
}

fn main() -> Result<()> {
    let words: Vec<String> = std::env::args().skip(1).collect();
    let number = |n: usize| words[n].parse::<u64>().unwrap();
    match words[0].as_str() {
        "records" => records(number(1))?,
        "lines" => lines(number(1) as usize, number(2) as usize, number(3) as usize, &std::fs::read(&words[4])?)?,
        "texts" => println!("{}", texts(number(1), &std::fs::read(&words[2])?)),
        "slices" => println!("{}", slices(number(1))),
        other => panic!("no loop {other}"),
    }
    Ok(())
}
