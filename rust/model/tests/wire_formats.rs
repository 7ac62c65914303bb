//! Captures written as raw bytes, VCD and CSV, and read back by small readers of their own.

use std::collections::HashMap;

use model::wire::formats::{csv, raw, vcd, NAMES};
use model::wire::play::play;
use model::wire::random::{scene, Sort};
use model::wire::stories::stories;
use model::wire::{Flaw, LINES};
use model::Kind;

/// The bit of a sample that has this name.
fn place(name: &str) -> usize {
    NAMES.iter().position(|known| *known == name).expect(name)
}

fn with_bit(sample: u8, place: usize, level: u8) -> u8 {
    sample & !(1 << place) | level << place
}

/// The samples of a VCD at so many samples a tick. A line that is not named is high.
fn read_vcd(text: &str, samples_per_tick: u64) -> Vec<u8> {
    let words: Vec<&str> = text.split_whitespace().collect();
    let at = words.iter().position(|word| *word == "$timescale").unwrap();
    assert_eq!(words[at + 1], "1");
    let of_tick = match words[at + 2] {
        "us" => 1_000_u128,
        "ns" => 1_000_000,
        "ps" => 1_000_000_000,
        other => panic!("{other}"),
    };
    let mut lines = HashMap::new();
    for var in words.windows(5).filter(|five| five[0] == "$var") {
        assert_eq!(var[1..3], ["wire", "1"]);
        lines.insert(var[3], place(var[4]));
    }
    let start = words.iter().position(|word| *word == "$enddefinitions").unwrap() + 2;
    let mut samples = vec![];
    let mut levels = LINES;
    for word in &words[start..] {
        if let Some(time) = word.strip_prefix('#') {
            // The sample whose time this is: times may have been cut to a whole unit.
            let time: u128 = time.parse().unwrap();
            let sample = (time * u128::from(samples_per_tick)).div_ceil(of_tick) as usize;
            samples.resize(sample, levels);
        } else {
            let (level, code) = word.split_at(1);
            levels = with_bit(levels, lines[code], level.parse().unwrap());
        }
    }
    samples
}

fn read_csv(text: &str) -> Vec<u8> {
    let mut rows = text.lines();
    let columns: Vec<usize> = rows.next().unwrap().split(',').map(place).collect();
    let sample = |row: &str| {
        let levels: Vec<u8> = row.split(',').map(|level| level.parse().unwrap()).collect();
        assert_eq!(levels.len(), columns.len());
        columns
            .iter()
            .zip(levels)
            .fold(LINES, |sample, (place, level)| with_bit(sample, *place, level))
    };
    rows.map(sample).collect()
}

/// What the formats keep: seven lines, or the four upstream ones with the others high.
fn kept(samples: &[u8], lines: usize) -> Vec<u8> {
    let others = if lines == 4 { LINES } else { 0 };
    samples.iter().map(|sample| sample & 0x7F | others).collect()
}

#[test]
fn written_and_read_back() {
    for seed in 0..60 {
        let played = play(&scene(Sort::Noisy, seed));
        let (samples, of_tick) = (&played.samples, played.setting.samples_per_tick);
        assert_eq!(&raw(samples), samples);
        for lines in [4, 7] {
            let expected = kept(samples, lines);
            assert_eq!(
                read_vcd(&vcd(samples, lines, of_tick), of_tick),
                expected,
                "{seed} {lines}"
            );
            let columns: Vec<usize> = (0..lines).map(|at| (at + seed as usize) % lines).collect();
            assert_eq!(read_csv(&csv(samples, &columns)), expected, "{seed} {lines}");
        }
    }
}

/// Samples that last no whole number of picoseconds, or of nanoseconds, come back too.
#[test]
fn any_rate_comes_back() {
    let story = stories().into_iter().find(|story| story.name == "pair").unwrap();
    let samples = play(&story.scene(Kind::Pca9641, Flaw::None, 1)).samples;
    for of_tick in [1, 3, 7, 48, 96, 100, 125, 128, 333, 400, 1000, 1024, 4095, 24_000, 33_333] {
        assert_eq!(read_vcd(&vcd(&samples, 7, of_tick), of_tick), samples, "{of_tick}");
    }
}

#[test]
fn as_they_are_written() {
    let text = vcd(&[0x7F, 0x7F, 0x7D, 0x3C], 7, 1000);
    let lines: Vec<&str> = text.lines().collect();
    assert_eq!(lines[0], "$timescale 1 us $end");
    assert_eq!(lines[2], "$var wire 1 ! scl0 $end");
    assert_eq!(lines[8], "$var wire 1 ' int_in $end");
    let first = ["#0", "1!", "1\"", "1#", "1$", "1%", "1&", "1'"];
    assert_eq!(lines[11..19], first);
    assert_eq!(lines[19..], ["#2", "0\"", "#3", "0!", "0'", "#4"]);
    assert_eq!(vcd(&[0x0F], 4, 250).lines().next(), Some("$timescale 1 us $end"));
    assert_eq!(vcd(&[0x0F], 4, 400).lines().next(), Some("$timescale 1 ns $end"));
    assert_eq!(vcd(&[0x0F], 4, 128).lines().next(), Some("$timescale 1 ps $end"));
    assert_eq!(csv(&[0x7F, 0x02], &[1, 0, 6]), "sda0,scl0,int_in\n1,1,1\n1,0,0\n");
    assert_eq!((vcd(&[], 7, 1000).lines().last(), csv(&[], &[0])), (Some("#0"), "scl0\n".into()));
}
