//! Writes a file of so many orders of 24 bytes to the standard output, as `queries` reads them; kinds are 0 to 4.
use std::io::{BufWriter, Write};

fn main() -> std::io::Result<()> {
    let count: u64 = std::env::args().nth(1).and_then(|n| n.parse().ok()).unwrap_or(2_796_202);
    let mut out = BufWriter::new(std::io::stdout().lock());
    for k in 0..count {
        let mixed = k.wrapping_mul(0x9e37_79b9_7f4a_7c15);
        out.write_all(&(k as i32).to_le_bytes())?;
        out.write_all(&((mixed >> 33) as i16 % 5).unsigned_abs().to_le_bytes())?;
        out.write_all(&[0; 2])?;
        out.write_all(&(mixed as i64 >> 24).to_le_bytes())?;
        out.write_all(&mixed.to_be_bytes()[..4])?;
        out.write_all(&[0; 4])?;
    }
    out.flush()
}
