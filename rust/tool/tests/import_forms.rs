//! `import` of captures in all their forms, of any length, and with time between the events.

mod common;

use std::fs;
use std::process::Command;

use common::{code, root, run, said, told, Folder, TOOL};

use gunwaleish::{Event, Part, Pins};
use gunwaleish_tool::commands::import::{import_taken, Wanted};
use gunwaleish_tool::device::Device;
use gunwaleish_tool::samples::{read_all, Said, Taken};
use gunwaleish_tool::script::write_script;
use model::wire::formats::{csv, vcd};
use model::wire::play::play;
use model::wire::random::{scene, Sort};
use model::Kind;

const DEVICE: [&str; 4] = ["--address", "71", "--part", "PCA9641"];

/// Every form of the sample gives the same trace, and a capture that is longer than the library takes
/// gives it too, if little moves in it.
#[test]
fn import_takes_every_form() {
    let folder = Folder::new("forms");
    let samples = fs::read(root().join("traces/box14.capture")).unwrap();
    let trace = fs::read(root().join("traces/box14.trace")).unwrap();
    let slow: Vec<u8> = samples.iter().flat_map(|sample| [*sample; 40]).collect();
    let files: [(&str, Vec<u8>); 5] = [
        ("a.vcd", vcd(&samples, 4, 1000).into()),
        ("a.csv", csv(&samples, &[3, 1, 0, 2]).into()),
        ("slow.capture", slow.clone()),
        ("slow.vcd", vcd(&slow, 7, 40_000).into()),
        ("slow.csv", csv(&slow, &[0, 1, 2, 3]).into()),
    ];
    for (name, bytes) in files {
        let path = folder.path(name);
        fs::write(&path, bytes).unwrap();
        let output = run(&[&["import", &path], &DEVICE[..]].concat());
        assert_eq!((code(&output), output.stdout == trace), (0, true), "{name}: {}", said(&output));
        // Its unit of time is the nanosecond, of which a sample has 25.
        let times = if name == "slow.vcd" {
            40 * 25
        } else if name.starts_with("slow") {
            40
        } else {
            1
        };
        let count = times * samples.len();
        assert!(said(&output).contains(&format!("{name}: {count} samples; 9 transfers")), "{name}");
    }
}

/// A fault is told where it stands in the file, not among the samples that are left.
#[test]
fn faults_of_a_long_capture() {
    let folder = Folder::new("faults");
    let samples = fs::read(root().join("traces/box14.capture")).unwrap();
    let cut = [vec![0x0F; 50_000], samples[..150].to_vec(), vec![0x0F; 9]].concat();
    fs::write(folder.path("cut"), cut).unwrap();
    let output = run(&[&["import", &folder.path("cut")], &DEVICE[..]].concat());
    let place = 50_000 + samples[..150].iter().rposition(|sample| sample & 3 != 3).unwrap() + 1;
    assert!(
        said(&output).contains(&format!("inside a byte at sample {place}")),
        "{}",
        said(&output)
    );
    // Too many changes.
    let dense: Vec<u8> = (0..40_000u32).map(|at| 0x0E | (at & 1) as u8).collect();
    fs::write(folder.path("dense"), dense).unwrap();
    let output = run(&[&["import", &folder.path("dense")], &DEVICE[..]].concat());
    let why =
        "refusal 13: the capture has more than 32,768 samples (40000 samples, of which more than";
    assert!(code(&output) == 1 && said(&output).contains(why), "{}", said(&output));
}

/// A session goes through sigrok-cli where it is installed; where it is not, the command is told.
#[test]
fn sessions_of_sigrok() {
    let folder = Folder::new("session");
    let session = folder.path("box.sr");
    fs::write(&session, b"PK\x03\x04x").unwrap();
    let mut bare = Command::new(TOOL);
    bare.args(["import", &session]).args(DEVICE).env("PATH", folder.name());
    let bare = bare.output().unwrap();
    assert_eq!(code(&bare), 1);
    let told_of = said(&bare);
    assert!(
        told_of.contains(&format!("sigrok-cli -i {session} -O vcd -o {session}.vcd")),
        "{told_of}"
    );
    let made = Command::new("sigrok-cli")
        .args([
            "-I",
            "binary:numchannels=8:samplerate=1000000",
            "-i",
            "traces/box14.capture",
            "-o",
            &session,
        ])
        .current_dir(root())
        .output();
    if made.is_err() {
        return println!("skipped: sigrok-cli is not installed");
    }
    let output = run(&[&["import", &session, "--script"], &DEVICE[..]].concat());
    assert_eq!(code(&output), 0, "{}", said(&output));
    assert_eq!(told(&output), fs::read_to_string(root().join("traces/box14.script")).unwrap());
    fs::write(&session, b"PK\x03\x04 no session").unwrap();
    let output = run(&[&["import", &session], &DEVICE[..]].concat());
    assert_eq!(code(&output), 1, "{}", said(&output));
}

/// With a rate, ticks and lines stand between the events of an import: all events that were played.
#[test]
fn import_puts_time_between_the_events() {
    let mut imported = 0;
    for seed in 0..40 {
        let played = play(&scene(Sort::Apart, seed));
        let changes = played.samples.windows(2).filter(|two| (two[0] ^ two[1]) & 15 != 0).count();
        if changes >= 32_768 {
            continue;
        }
        let part =
            if played.setting.kind == Kind::Pca9641 { Part::Pca9641 } else { Part::Tpt29641 };
        let device = Device { address: played.setting.address, pins: Pins::default(), part };
        let mut taken = Taken::new(true);
        read_all(&played.samples[..], "a", &Said::default(), &mut taken).unwrap();
        let wanted = Wanted { device, script: true, empty: true };
        let every = played.setting.samples_per_tick as u32;
        let (made, _) = import_taken("a", &taken, wanted, Some(every));
        let events: Vec<Event> =
            played.events.iter().map(|(_, event)| Event::from(*event)).collect();
        assert!(made.output == Some(write_script(Pins::default(), part, &events).into()), "{seed}");
        imported += 1;
    }
    assert!(imported > 20, "{imported}");
}
