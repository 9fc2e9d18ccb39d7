//! A plain Rust program that answers the same words as `fmem sum`: the peer that the tool is measured against.
//! `vectors` in place of `sum` has a loop for each type whose values stand side by side, which the compiler makes of vector
//! instructions: the values are summed in 64 bits, and the sum widened once. `read FILE` reads the file alone, and prints
//! its size.
use std::io::{ErrorKind, Write};
use std::process::exit;

const LIMIT: usize = 67_108_864;

fn number(word: &str) -> Option<usize> {
    let n: usize = word.parse().ok()?;
    (n.to_string() == word).then_some(n)
}

/// The width of a type, and the value of its bytes.
type Reader = (usize, fn(&[u8]) -> i128);

fn reader(kind: &str) -> Option<Reader> {
    Some(match kind {
        "byte" => (1, |b| (b[0] as i8).into()),
        "boolean" => (1, |b| (b[0] != 0).into()),
        "char" => (2, |b| u16::from_le_bytes(b.try_into().unwrap()).into()),
        "short" => (2, |b| i16::from_le_bytes(b.try_into().unwrap()).into()),
        "int" => (4, |b| i32::from_le_bytes(b.try_into().unwrap()).into()),
        "long" => (8, |b| i64::from_le_bytes(b.try_into().unwrap()).into()),
        _ => return None,
    })
}

/// The sum of values of this width that stand side by side, none of which has more than 32 bits.
fn side_by_side<const WIDTH: usize>(bytes: &[u8], value: impl Fn([u8; WIDTH]) -> i64) -> i128 {
    bytes.chunks_exact(WIDTH).map(|b| value(b.try_into().unwrap())).sum::<i64>().into()
}

/// The sum by the loop of the type, for values that stand side by side.
fn by_vectors(kind: &str, bytes: &[u8]) -> Option<i128> {
    Some(match kind {
        "byte" => side_by_side(bytes, |b| i8::from_le_bytes(b).into()),
        "boolean" => side_by_side(bytes, |b: [u8; 1]| (b[0] != 0).into()),
        "char" => side_by_side(bytes, |b| u16::from_le_bytes(b).into()),
        "short" => side_by_side(bytes, |b| i16::from_le_bytes(b).into()),
        "int" => side_by_side(bytes, |b| i32::from_le_bytes(b).into()),
        _ => return None,
    })
}

fn sum(words: &[String]) -> Option<(usize, usize, Reader, &str)> {
    let [command, size, at, kind, file] = words else { return None };
    let (size, at, reader) = (number(size)?, number(at)?, reader(kind)?);
    let width = reader.0;
    let fits = (1..=1_048_576).contains(&size) && size % width == 0 && at % width == 0 && at + width <= size;
    (["sum", "vectors"].contains(&command.as_str()) && fits && !file.starts_with('-')).then_some((size, at, reader, file))
}

fn answer(words: &[String]) -> (i32, String) {
    if let [command, file] = words {
        if command == "read" {
            return (0, format!("{}\n", std::fs::read(file).map_or(0, |bytes| bytes.len())));
        }
    }
    let Some((size, at, (width, value), file)) = sum(words) else { return (1, "usage\n".into()) };
    let bytes = match std::fs::read(file) {
        Ok(bytes) => bytes,
        Err(e) if e.kind() == ErrorKind::NotFound => return (2, format!("missing {file}\n")),
        Err(_) => return (3, String::new()),
    };
    if bytes.len() > LIMIT {
        return (7, "too long\n".into());
    }
    if bytes.len() % size != 0 {
        return (6, format!("ragged {}\n", bytes.len() % size));
    }
    let vectors = (words[0] == "vectors" && size == width).then(|| by_vectors(&words[3], &bytes)).flatten();
    let sum = vectors.unwrap_or_else(|| bytes.chunks_exact(size).map(|record| value(&record[at..at + width])).sum());
    (0, format!("sum {sum}\n"))
}

fn main() {
    let words: Vec<String> = std::env::args().skip(1).collect();
    let (status, text) = answer(&words);
    if std::io::stdout().write_all(text.as_bytes()).is_err() {
        exit(8);
    }
    exit(status);
}
