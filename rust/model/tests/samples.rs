//! The sample traces: they show what they say, and the listings beside them are the model's.

use std::fs;
use std::path::{Path, PathBuf};

use model::trace::four;
use model::{listing, read_trace, run_trace};

/// The folder of the samples.
fn folder() -> PathBuf {
    Path::new(env!("CARGO_MANIFEST_DIR")).join("../../traces")
}

fn sample(name: &str) -> Vec<u8> {
    fs::read(folder().join(format!("{name}.trace"))).expect(name)
}

/// The events and answers of an accepted sample.
fn run(name: &str) -> Vec<([u8; 4], [u8; 4])> {
    let trace = sample(name);
    let events = read_trace(&trace).expect(name).events;
    let mut answers = vec![0; 4 * events.len()];
    assert_eq!(run_trace(&trace, &mut answers).events, events.len(), "{name}");
    events.into_iter().zip(answers.chunks(4).map(four)).collect()
}

/// The owner after each TICK: 0 none, 1 master 0, 2 master 1.
fn owners_by_tick(name: &str) -> Vec<u8> {
    let ticks = run(name).into_iter().filter(|(event, _)| event[0] == 6);
    ticks.map(|(_, answer)| answer[2] & 3).collect()
}

/// Every byte a READ handed out.
fn bytes_read(name: &str) -> Vec<u8> {
    let reads = run(name).into_iter().filter(|(event, _)| event[0] == 2);
    reads.map(|(_, answer)| answer[1]).collect()
}

#[test]
fn listings_are_those_of_the_traces() {
    let mut files: Vec<PathBuf> =
        fs::read_dir(folder()).unwrap().map(|entry| entry.unwrap().path()).collect();
    files.retain(|path| path.extension().is_some_and(|kind| kind == "trace"));
    assert!(files.len() >= 8, "{} samples", files.len());
    for path in files {
        let text = fs::read_to_string(path.with_extension("listing")).unwrap();
        assert!(text == listing(&fs::read(&path).unwrap()), "the listing of {}", path.display());
    }
}

#[test]
fn box_14_empty_keeps_the_partner_waiting() {
    assert_eq!(owners_by_tick("box14-rt00"), vec![1; 300]);
}

/// One byte differs, and the partner has its turn at the 50th tick.
#[test]
fn box_14_filled_gives_the_partner_its_turn() {
    let owners = owners_by_tick("box14-rt50");
    assert_eq!(owners[..49], [1; 49]);
    assert_eq!(owners[49..99], [2; 50]);
    let (empty, filled) = (sample("box14-rt00"), sample("box14-rt50"));
    let differing = empty.iter().zip(&filled).filter(|(a, b)| a != b).count();
    assert_eq!((differing, empty.len()), (1, filled.len()));
}

/// STATUS: hung; then hung and failed; then neither, and both lines high.
#[test]
fn hung_bus_is_mended_by_the_second_initialisation() {
    assert_eq!(bytes_read("hung-bus"), [0x4C, 0x4E, 0xC8]);
    let last = run("hung-bus").last().unwrap().1;
    assert_eq!(last[2], 0x25, "master 0 owns and is connected, ground 1");
}

#[test]
fn mail_goes_both_ways() {
    assert_eq!(bytes_read("mail"), [0x20, 0x34, 0x12, 0x10, 0xCD, 0xAB]);
}

/// Four words are read, in the order in which they filled their boxes, and the dropped ones nowhere.
#[test]
fn takeover_words_come_once() {
    let bytes = [[0x34, 0x12], [0xF0, 0xDE], [0xBC, 0x9A], [0x22, 0x44]].concat();
    let mut read = bytes_read("takeover");
    assert_eq!(read.remove(2), 0x10, "mail emptied");
    assert_eq!(read, bytes);
}

/// Both ask, both let go, both ask, and so once more. STATUS bit 0 of the first two losers in turn,
/// then LOCK_GRANT of the second winner. Equal priorities twice, then master 1's own.
#[test]
fn pair_has_each_win() {
    let pairs = run("pair").into_iter().filter(|(event, _)| event[0] == 4);
    let (both_ask, grounds): (Vec<bool>, Vec<u8>) =
        pairs.map(|(event, answer)| (event[1] & event[2] & 1 == 1, answer[2] >> 5)).unzip();
    assert_eq!(both_ask, [true, false, true, false, true]);
    assert_eq!(grounds, [3, 0, 3, 0, 2]);
    assert_eq!(run("pair").last().unwrap().1[2], 0x42, "master 1 owns, ground 2");
    assert_eq!(bytes_read("pair"), [0xC9, 0xC9, 0x83]);
}

#[test]
fn refused_samples() {
    assert_eq!(listing(&sample("refused-cut")), "R5\n");
    assert_eq!(listing(&sample("refused-strap")), "R8\n");
}
