//! stored DIR: writes the stored set, `stdin` and `stdout`, into a folder.

use std::path::PathBuf;
use std::{env, fs, io};

use model::stored::{input, output};

fn main() -> io::Result<()> {
    let Some(folder) = env::args_os().nth(1).map(PathBuf::from) else {
        eprintln!("usage: stored DIR");
        std::process::exit(2);
    };
    fs::write(folder.join("stdin"), input())?;
    fs::write(folder.join("stdout"), output())
}
