//! stored_share NAME DIR: writes an input of the bus share report, `stdin`, and the text that it
//! prints, `stdout`, into a folder. Without arguments it says the names.

use std::path::PathBuf;
use std::{env, fs, io};

use model::stored_share::cases;

fn main() -> io::Result<()> {
    let cases = cases();
    let words: Vec<String> = env::args().skip(1).collect();
    let [name, folder] = &words[..] else {
        cases.iter().for_each(|case| println!("{:>20} {:>7} bytes", case.name, case.input.len()));
        return Ok(());
    };
    let Some(case) = cases.iter().find(|case| case.name == name) else {
        eprintln!("usage: stored_share NAME DIR");
        std::process::exit(2);
    };
    let folder = PathBuf::from(folder);
    fs::write(folder.join("stdin"), &case.input)?;
    fs::write(folder.join("stdout"), case.output())
}
