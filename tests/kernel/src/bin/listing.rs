//! The listing program (section 10 of docs/SPECIFICATION.md), run by the oracle: for comparing its text with the kernel's.

use std::io::{Read, Write};

fn main() -> std::io::Result<()> {
    let mut input = Vec::new();
    std::io::stdin().read_to_end(&mut input)?;
    std::io::stdout().write_all(oracle::listing::listing(&input).as_bytes())
}
