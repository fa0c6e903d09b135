//! The printing program: little-endian words from standard input.

use std::io::{Read, Write};

fn main() -> std::io::Result<()> {
    let mut bytes = Vec::new();
    std::io::stdin().lock().read_to_end(&mut bytes)?;
    let mut out = std::io::stdout().lock();
    for line in peer::words::program(&bytes) {
        writeln!(out, "{line}")?;
    }
    Ok(())
}
