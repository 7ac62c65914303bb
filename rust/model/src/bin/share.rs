//! The bus share report of document 02, #112: reads traces on standard input, each after its length,
//! and prints a line a controller.

use std::io::{self, Read};

fn main() -> io::Result<()> {
    let mut input = Vec::new();
    io::stdin().read_to_end(&mut input)?;
    print!("{}", model::share_report(&input));
    Ok(())
}
