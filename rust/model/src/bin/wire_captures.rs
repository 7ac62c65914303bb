//! `wire_captures DIR [--seed N] [--count N] [--only START] [--vcd] [--csv]`: writes captures of both
//! upstream buses with the lines around them into a folder, each as NAME.capture, one byte a sample,
//! with NAME.truth, what is true of it. No file that is there is written over.

use std::io::Write;
use std::path::{Path, PathBuf};
use std::process::exit;
use std::{env, fs, io};

use model::wire::catalogue::{catalogue, truth, Named};
use model::wire::formats::{csv, raw, vcd, NAMES};

const USAGE: &str =
    "usage: wire_captures DIR [--seed N] [--count N] [--only START] [--vcd] [--csv]";

#[derive(Default)]
struct Wanted {
    folder: PathBuf,
    seed: u64,
    count: u64,
    only: String,
    vcd: bool,
    csv: bool,
}

fn wanted() -> Option<Wanted> {
    let mut words = env::args().skip(1);
    let mut wanted = Wanted { folder: words.next()?.into(), count: 3, ..Wanted::default() };
    if wanted.folder.as_os_str().is_empty() || wanted.folder.to_string_lossy().starts_with('-') {
        return None;
    }
    while let Some(word) = words.next() {
        match word.as_str() {
            "--seed" => wanted.seed = words.next()?.parse::<u32>().ok()?.into(),
            "--count" => wanted.count = words.next()?.parse::<u16>().ok()?.into(),
            "--only" => wanted.only = words.next()?,
            "--vcd" => wanted.vcd = true,
            "--csv" => wanted.csv = true,
            _ => return None,
        }
    }
    Some(wanted)
}

fn main() {
    let Some(wanted) = wanted() else {
        eprintln!("{USAGE}");
        exit(2);
    };
    let all = catalogue(wanted.seed, wanted.count);
    let chosen: Vec<&Named> = all.iter().filter(|one| one.name.starts_with(&wanted.only)).collect();
    if chosen.is_empty() {
        eprintln!("wire_captures: no capture's name begins with {:?}", wanted.only);
        exit(2);
    }
    for one in chosen {
        if let Err(error) = write(&wanted, one) {
            eprintln!("wire_captures: {}: {error}", wanted.folder.join(&one.name).display());
            exit(2);
        }
        let (played, first) = (&one.played, one.played.first_wrong());
        let wrong = first.map_or("none wrong".to_string(), |at| format!("first wrong at {at}"));
        let (samples, events) = (played.samples.len(), played.events.len());
        // Whoever reads this may go away; the files are written all the same.
        let _ = writeln!(
            io::stdout(),
            "{}: {samples} samples, {events} events, {} READ, {wrong}",
            one.name,
            played.reads.len()
        );
    }
}

fn write(wanted: &Wanted, one: &Named) -> io::Result<()> {
    fs::create_dir_all(&wanted.folder)?;
    let file = |kind: &str| wanted.folder.join(format!("{}.{kind}", one.name));
    let (samples, of_tick) = (&one.played.samples, one.played.setting.samples_per_tick);
    let all = NAMES.len();
    if wanted.vcd {
        put(&file("vcd"), vcd(samples, all, of_tick).as_bytes())?;
    }
    if wanted.csv {
        put(&file("csv"), csv(samples, &(0..all).collect::<Vec<_>>()).as_bytes())?;
    }
    put(&file("truth"), truth(&one.played).as_bytes())?;
    put(&file("capture"), &raw(samples))
}

/// Writes a file whole or not at all, and none that is there.
fn put(file: &Path, bytes: &[u8]) -> io::Result<()> {
    if file.exists() {
        return Err(io::Error::new(
            io::ErrorKind::AlreadyExists,
            "is there already; nothing is written over",
        ));
    }
    let part = file.with_file_name(format!(
        ".{}.part",
        file.file_name().unwrap_or_default().to_string_lossy()
    ));
    let written = fs::write(&part, bytes).and_then(|()| fs::rename(&part, file));
    if written.is_err() {
        let _ = fs::remove_file(&part);
    }
    written
}
