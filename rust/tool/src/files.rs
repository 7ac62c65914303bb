//! Files in and out: read no further than is needed, written whole or not at all.

use std::ffi::OsString;
use std::fs::{self, File, OpenOptions};
use std::io::{self, ErrorKind, IsTerminal, Read, Write};
use std::path::Path;

use crate::failure::Failure;
use crate::telling::{complain, shown};

/// What was read, with the name it goes by in messages.
pub struct Input {
    pub name: String,
    pub bytes: Vec<u8>,
}

pub fn is_standard(path: &Path) -> bool {
    path.as_os_str() == "-"
}

/// Reads a file or standard input, and of a longer one only so many bytes and one more. That byte
/// shows that there is more.
pub fn read(path: &Path, most: usize) -> Result<Input, Failure> {
    let name = name_of(path);
    let read = match is_standard(path) {
        true => {
            hint_at_terminal();
            read_up_to(io::stdin().lock(), most)
        }
        false => File::open(path).and_then(|file| read_up_to(file, most)),
    };
    match read {
        Ok(bytes) => Ok(Input { name, bytes }),
        Err(error) => Err(Failure::unread(name, error)),
    }
}

fn read_up_to(from: impl Read, most: usize) -> io::Result<Vec<u8>> {
    let mut bytes = vec![];
    from.take(most as u64 + 1).read_to_end(&mut bytes)?;
    Ok(bytes)
}

/// Says that standard input is read, where a person sits before it and might wait for an answer.
pub fn hint_at_terminal() {
    if io::stdin().is_terminal() {
        complain("reading standard input, which is this terminal: Ctrl-D ends it; or name a file");
    }
}

/// The name of a file as it can be shown.
pub fn name_of(path: &Path) -> String {
    match is_standard(path) {
        true => "standard input".to_string(),
        false => shown(&path.to_string_lossy()),
    }
}

/// Writes a file whole or not at all: under another name beside it, which then becomes its name.
/// What is no file, such as /dev/null, is written to directly, and a link to a file stays a link.
/// A file that is replaced keeps its mode.
pub fn write_whole(path: &Path, bytes: &[u8]) -> Result<(), Failure> {
    let target = path.canonicalize().unwrap_or(path.to_path_buf());
    let written = match target.exists() && !target.is_file() {
        true => OpenOptions::new().write(true).open(path).and_then(|mut to| to.write_all(bytes)),
        false => match write_beside(&target, bytes) {
            // No file can be made in this folder, but the one that is there may be written to.
            Err(error) if is_shut(&error) && target.is_file() => write_over(&target, bytes),
            written => written,
        },
    };
    written.map_err(|error| Failure::unwritten(name_of(path), error))
}

fn is_shut(error: &io::Error) -> bool {
    matches!(error.kind(), ErrorKind::PermissionDenied | ErrorKind::ReadOnlyFilesystem)
}

fn write_beside(path: &Path, bytes: &[u8]) -> io::Result<()> {
    let mut name = OsString::from(".");
    name.push(path.file_name().unwrap_or_default());
    name.push(format!(".{}.new", std::process::id()));
    let new = path.with_file_name(name);
    let write = || -> io::Result<()> {
        let mut file = File::create(&new)?;
        // Before the first byte, since a mode may keep others from reading it.
        if let Ok(old) = fs::metadata(path) {
            file.set_permissions(old.permissions())?;
        }
        file.write_all(bytes)?;
        file.sync_all()?;
        fs::rename(&new, path)
    };
    write().inspect_err(|_| {
        // If it was never made, there is nothing to take away.
        let _ = fs::remove_file(&new);
    })
}

/// Writes over a file in its place. If that fails midway, what was there is put back.
fn write_over(path: &Path, bytes: &[u8]) -> io::Result<()> {
    let old = fs::read(path);
    let put = |bytes: &[u8]| -> io::Result<()> {
        let mut file = OpenOptions::new().write(true).open(path)?;
        file.write_all(bytes)?;
        file.set_len(bytes.len() as u64)?;
        file.sync_all()
    };
    put(bytes).inspect_err(|_| {
        let _ = old.map(|old| put(&old));
    })
}

/// Prints text on standard output.
pub fn print(text: &str) -> Result<(), Failure> {
    print_bytes(text.as_bytes())
}

/// Prints bytes there. A terminal is spared what is no text.
pub fn print_bytes(bytes: &[u8]) -> Result<(), Failure> {
    let mut out = io::stdout().lock();
    if out.is_terminal() && is_binary(bytes) {
        let what =
            "what comes out is binary, and standard output is a terminal: -o FILE writes it \
                    to a file, and a pipe hands it on to another command";
        return Err(Failure::Wrong(what.to_string()));
    }
    match out.write_all(bytes).and_then(|()| out.flush()) {
        Ok(()) => Ok(()),
        Err(error) if error.kind() == ErrorKind::BrokenPipe => Err(Failure::Closed),
        Err(error) => Err(Failure::unwritten("standard output", error)),
    }
}

fn is_binary(bytes: &[u8]) -> bool {
    let control = |letter: char| letter.is_control() && !matches!(letter, '\n' | '\t' | '\r');
    std::str::from_utf8(bytes).map_or(true, |text| text.chars().any(control))
}
