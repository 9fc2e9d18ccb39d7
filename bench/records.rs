//! Writes a file of so many records of 16 bytes to the standard output: a long 0 and a long that varies, both little.
use std::io::{BufWriter, Write};

fn main() -> std::io::Result<()> {
    let count: u64 = std::env::args().nth(1).and_then(|n| n.parse().ok()).unwrap_or(4_194_304);
    let mut out = BufWriter::new(std::io::stdout().lock());
    for k in 0..count {
        out.write_all(&0u64.to_le_bytes())?;
        out.write_all(&(k.wrapping_mul(0x9e37_79b9_7f4a_7c15) as i64).to_le_bytes())?;
    }
    out.flush()
}
