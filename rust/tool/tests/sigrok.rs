//! Captures as sigrok's decoder of the I2C bus reads them, which is not ours: where sigrok-cli is
//! installed, what it decodes becomes events, and they are those of the library; and the bytes that it
//! sees read are those that a listener hears.
//!
//! sigrok refuses nothing. It takes no notice of a START or STOP inside an address byte, and it sees a
//! START also where SCL was low in the sample before. So the captures here have neither.

use std::fs;
use std::path::Path;
use std::process::Command;

use gunwaleish::{import_capture, Event, Master, Part, Watch, WatchSettings};
use model::captures::{capture, Manner};
use model::rng::Rng;

/// A decoded line: the sample where it begins, and its words.
type Line = (usize, String);

/// What sigrok decodes on one bus of a capture.
fn decoded(file: &Path, bus: Master) -> Vec<Line> {
    let (scl, sda) = (2 * bus.number(), 2 * bus.number() + 1);
    let output = Command::new("sigrok-cli")
        .args(["-I", "binary:numchannels=8:samplerate=1000000", "-i"])
        .arg(file)
        .args(["-P", &format!("i2c:scl={scl}:sda={sda}:address_format=unshifted")])
        .args(["-A", "i2c=addr-data", "--protocol-decoder-samplenum"])
        .output()
        .unwrap();
    assert!(output.status.success(), "{}", String::from_utf8_lossy(&output.stderr));
    let text = String::from_utf8(output.stdout).unwrap();
    let line = |line: &str| {
        let (place, words) = line.split_once(" i2c-1: ")?;
        Some((place.split('-').next()?.parse().ok()?, words.to_string()))
    };
    text.lines().map(|found| line(found).expect(found)).collect()
}

/// The events of one bus out of what was decoded, each with its sample: those of a byte at its
/// ninth clock, which sigrok calls ACK or NACK.
fn events_of(lines: &[Line], master: Master, address: u8) -> Vec<(usize, Event)> {
    let mut events = vec![];
    // The transfer's bytes up to here, and whether a STOP is due.
    let mut bytes: Vec<u8> = vec![];
    let mut due = false;
    for (sample, words) in lines {
        let value = words.split_once(": ").map(|(_, hex)| u8::from_str_radix(hex, 16).unwrap());
        let event = match words.as_str() {
            "Start" | "Start repeat" => {
                bytes.clear();
                None
            }
            "ACK" | "NACK" => event(&bytes, master, address),
            "Stop" => std::mem::take(&mut due).then_some(Event::Stop { master }),
            _ => {
                bytes.extend(value);
                None
            }
        };
        due |= matches!(event, Some(Event::Command { .. } | Event::Read { .. }));
        events.extend(event.map(|event| (*sample, event)));
    }
    events
}

/// What the last of a transfer's bytes is to the device.
fn event(bytes: &[u8], master: Master, address: u8) -> Option<Event> {
    let (&first, data) = bytes.split_first()?;
    let &value = data.last()?;
    match (first, data.len()) {
        (0x00, 1) => Some(Event::GeneralCall { master, code: value }),
        (first, 1) if first == 2 * address => Some(Event::Command { master, code: value }),
        (first, _) if first == 2 * address => Some(Event::Write { master, value }),
        (first, _) if first == 2 * address + 1 => Some(Event::Read { master }),
        _ => None,
    }
}

/// The bytes that one controller reads of the device, each with the sample of its ninth clock.
fn bytes_read(lines: &[Line], address: u8) -> Vec<(u64, u8)> {
    let (mut bytes, mut read): (Vec<u8>, _) = (vec![], vec![]);
    for (sample, words) in lines {
        match words.as_str() {
            "Start" | "Start repeat" => bytes.clear(),
            "ACK" | "NACK" => match bytes[..] {
                [first, .., last] if first == 2 * address + 1 => read.push((*sample as u64, last)),
                _ => {}
            },
            _ => bytes.extend(
                words.split_once(": ").map(|(_, hex)| u8::from_str_radix(hex, 16).unwrap()),
            ),
        }
    }
    read
}

/// The same as a listener hears it.
fn bytes_heard(samples: &[u8], address: u8) -> [Vec<(u64, u8)>; 2] {
    let settings = WatchSettings { part: Part::Pca9641, address, every: 0, below: false };
    let mut watch = Watch::fresh(settings).unwrap();
    let mut heard = [vec![], vec![]];
    for sample in samples {
        watch.listen(&[*sample]);
        for master in Master::BOTH {
            let last = watch.last_read(master).filter(|read| read.sample + 1 == watch.samples());
            heard[master as usize].extend(last.map(|read| (read.sample, read.heard)));
        }
    }
    heard
}

/// Both buses by the sample, controller 0 first, and two writes of one sample as PAIR.
fn merged(buses: [Vec<(usize, Event)>; 2]) -> Vec<Event> {
    let mut all = buses.concat();
    all.sort_by_key(|(sample, _)| *sample);
    let of_a_sample = |found: &[(usize, Event)]| match found {
        [(_, Event::Write { value: value0, .. }), (_, Event::Write { value: value1, .. })] => {
            vec![Event::Pair { value0: *value0, value1: *value1 }]
        }
        _ => found.iter().map(|(_, event)| *event).collect(),
    };
    all.chunk_by(|a, b| a.0 == b.0).flat_map(of_a_sample).collect()
}

#[test]
fn sigrok_decodes_the_same_transfers() {
    if Command::new("sigrok-cli").arg("--version").output().is_err() {
        return println!("skipped: sigrok-cli is not installed");
    }
    let folder = std::env::temp_dir().join(format!("gunwaleish-sigrok-{}", std::process::id()));
    fs::create_dir_all(&folder).unwrap();
    let file = folder.join("a.capture");
    let mut rng = Rng::new(104);
    let (mut events, mut pairs, mut reads) = (0, 0, 0);
    for twins in [false, true, false, true] {
        let manner = Manner { slowest: if twins { 3 } else { 1 }, twins, broken: 0 };
        let made = capture(&mut rng, manner, 30_000);
        fs::write(&file, &made.samples).unwrap();
        let bus = |bus| events_of(&decoded(&file, bus), bus, made.address);
        let expected = merged(Master::BOTH.map(bus));
        assert_eq!(import_capture(&made.samples, made.address).unwrap(), expected);
        let read = Master::BOTH.map(|bus| bytes_read(&decoded(&file, bus), made.address));
        assert_eq!(bytes_heard(&made.samples, made.address), read);
        reads += read.iter().map(Vec::len).sum::<usize>();
        events += expected.len();
        pairs += expected.iter().filter(|event| matches!(event, Event::Pair { .. })).count();
    }
    fs::remove_dir_all(&folder).unwrap();
    println!("sigrok agrees on {events} events, {pairs} of them PAIR, and on {reads} bytes read");
    assert!(
        events > 1000 && pairs > 50 && reads > 100,
        "{events} events, {pairs} PAIRs, {reads} READs"
    );
}
