//! The listing program of M1: reads a trace on standard input and lists it.

use std::io::{self, Read};

fn main() -> io::Result<()> {
    let mut trace = Vec::new();
    io::stdin().read_to_end(&mut trace)?;
    print!("{}", model::listing(&trace));
    Ok(())
}
