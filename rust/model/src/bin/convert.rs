//! convert: reads an old trace on standard input and writes it with the third section of #105, or
//! else an R line.

use std::io::{self, Read, Write};

fn main() -> io::Result<()> {
    let mut old = Vec::new();
    io::stdin().read_to_end(&mut old)?;
    io::stdout().write_all(&model::converter::conversion(&old))
}
