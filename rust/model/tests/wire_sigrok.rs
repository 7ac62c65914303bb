//! The captures of `wire` as sigrok's decoder of the I2C bus reads them, which is not ours: where
//! sigrok-cli is installed, the STARTs, bytes and STOPs that it finds on each bus are those that were
//! played, also those for other devices, in a capture's raw bytes, its VCD and its CSV.

use std::fs;
use std::path::Path;
use std::process::Command;

use model::wire::formats::{csv, vcd};
use model::wire::play::play;
use model::wire::random::{scene, Sort};
use model::wire::stories::stories;
use model::wire::{Flaw, Played, Sign};
use model::Kind;

/// What sigrok finds on a bus with these channels, in a file of this format: a START or STOP at its
/// sample, a byte at its ninth clock.
fn found(file: &Path, format: &str, [scl, sda]: [&str; 2]) -> Vec<(u64, Sign)> {
    let output = Command::new("sigrok-cli")
        .args(["-I", format, "-i"])
        .arg(file)
        .args(["-P", &format!("i2c:scl={scl}:sda={sda}:address_format=unshifted")])
        .args(["-A", "i2c=addr-data", "--protocol-decoder-samplenum"])
        .output()
        .unwrap();
    assert!(output.status.success(), "{}", String::from_utf8_lossy(&output.stderr));
    let mut signs = vec![];
    let mut byte = None;
    for line in String::from_utf8(output.stdout).unwrap().lines() {
        let (place, words) = line.split_once(" i2c-1: ").expect(line);
        let sample = place.split('-').next().unwrap().parse().expect(line);
        match words {
            "Start" | "Start repeat" => signs.push((sample, Sign::Start)),
            "Stop" => signs.push((sample, Sign::Stop)),
            "ACK" | "NACK" => signs.extend(byte.take().map(|byte| (sample, Sign::Byte(byte)))),
            _ => byte = words.split_once(": ").map(|(_, hex)| u8::from_str_radix(hex, 16).unwrap()),
        }
    }
    signs
}

/// The stories and some random captures, with reads apart and overlapping.
fn captures() -> Vec<Played> {
    let short = stories().into_iter().filter(|story| story.name != "hung");
    let mut all: Vec<Played> =
        short.map(|story| play(&story.scene(Kind::Pca9641, Flaw::None, 104))).collect();
    for seed in 0..5 {
        all.extend([Sort::Apart, Sort::Overlapping].map(|sort| play(&scene(sort, seed))));
    }
    all
}

/// The channels of each bus by their numbers, and by the names that a VCD or CSV has.
const NUMBERS: [[&str; 2]; 2] = [["0", "1"], ["2", "3"]];
const NAMES: [[&str; 2]; 2] = [["scl0", "sda0"], ["scl1", "sda1"]];

#[test]
fn sigrok_finds_what_was_played() {
    if Command::new("sigrok-cli").arg("--version").output().is_err() {
        return println!("skipped: sigrok-cli is not installed");
    }
    let folder = std::env::temp_dir().join(format!("gunwaleish-wire-{}", std::process::id()));
    fs::create_dir_all(&folder).unwrap();
    let file = folder.join("a.capture");
    let (mut captures_read, mut signs) = (0, 0);
    for played in captures() {
        fs::write(&file, &played.samples).unwrap();
        for bus in [0, 1] {
            let signs_found = found(&file, "binary:numchannels=8:samplerate=1000000", NUMBERS[bus]);
            assert_eq!(signs_found, played.signs[bus], "{:?} bus {bus}", played.setting);
            signs += signs_found.len();
        }
        captures_read += 1;
    }
    fs::remove_dir_all(&folder).unwrap();
    println!("sigrok agrees on {signs} STARTs, bytes and STOPs of {captures_read} captures");
    assert!(signs > 3000, "{signs}");
}

/// A VCD in microseconds has a sample each; one in nanoseconds has so many a sample, and sigrok takes
/// the first of them.
#[test]
fn sigrok_reads_the_other_formats() {
    if Command::new("sigrok-cli").arg("--version").output().is_err() {
        return println!("skipped: sigrok-cli is not installed");
    }
    let folder = std::env::temp_dir().join(format!("gunwaleish-formats-{}", std::process::id()));
    fs::create_dir_all(&folder).unwrap();
    let file = folder.join("a");
    let story = stories().into_iter().find(|story| story.name == "pair").unwrap();
    let played = play(&story.scene(Kind::Pca9641, Flaw::None, 104));
    let samples = &played.samples;
    let texts = [
        ("vcd", vcd(samples, 7, 1000)),
        ("vcd:downsample=2500", vcd(samples, 4, 400)),
        ("csv:header=yes:column_formats=7l", csv(samples, &[6, 5, 4, 3, 2, 1, 0])),
        ("csv:header=yes:column_formats=4l", csv(samples, &[0, 1, 2, 3])),
    ];
    for (format, text) in &texts {
        fs::write(&file, text).unwrap();
        for bus in [0, 1] {
            assert_eq!(found(&file, format, NAMES[bus]), played.signs[bus], "{format} bus {bus}");
        }
    }
    fs::remove_dir_all(&folder).unwrap();
    println!("sigrok reads {} files of other formats alike", texts.len());
}
