//! Captures: the sample of box 14, whom a capture is read for, and what is told of a refused one.

use std::fs;
use std::path::{Path, PathBuf};

use gunwaleish::{import_capture, run, Event, Master, Part, Pins};
use gunwaleish_tool::commands::import::{import, Wanted};
use gunwaleish_tool::cut::{cuts, Cut};
use gunwaleish_tool::device::Device;
use gunwaleish_tool::each::Made;
use gunwaleish_tool::files::Input;
use gunwaleish_tool::seen::Seen;
use model::capture::{transfers, Edge, Transfer, MOST_SAMPLES};
use model::capture_damage::{about_bytes, any_samples, damaged, densest, lengthen};
use model::captures::{any_manner, capture, Manner};
use model::rng::Rng;

#[allow(dead_code)]
#[path = "../examples/box14_capture.rs"]
mod box14_capture;

const BOX_14: Device =
    Device { address: 0x71, pins: Pins { ad3: 0, ad2: 0, ad1: 0, ad0: 1 }, part: Part::Pca9641 };

/// A file of the samples.
fn file(name: &str) -> Vec<u8> {
    let folder: PathBuf = Path::new(env!("CARGO_MANIFEST_DIR")).join("../../traces");
    fs::read(folder.join(name)).expect(name)
}

fn input(bytes: &[u8]) -> Input {
    Input { name: "a.capture".to_string(), bytes: bytes.to_vec() }
}

fn imported(input: &Input, script: bool, empty: bool) -> (Made, Option<String>) {
    import(input, Wanted { device: BOX_14, script, empty })
}

#[test]
fn the_sample_is_as_it_is_drawn() {
    assert!(file("box14.capture") == box14_capture::samples());
}

#[test]
fn the_sample_gives_its_script_and_its_trace() {
    let capture = input(&file("box14.capture"));
    assert!(imported(&capture, true, false).0.output == Some(file("box14.script")));
    assert!(imported(&capture, false, false).0.output == Some(file("box14.trace")));
}

/// The capture shows the upstream transfers of the incident, and neither its ticks nor its lines.
#[test]
fn the_sample_is_the_incident() {
    let mut incident = run(&file("box14-rt00.trace")).unwrap().events;
    incident.retain(|event| !matches!(event, Event::Tick | Event::Lines { .. }));
    assert_eq!(import_capture(&file("box14.capture"), BOX_14.address).unwrap(), incident);
    // The transfer to the fan monitor is another device's.
    let fan = import_capture(&file("box14.capture"), 0x2E).unwrap();
    let master = Master::Zero;
    let write = [Event::Command { master, code: 0x40 }, Event::Write { master, value: 0x7F }];
    assert_eq!(fan, [&write[..], &[Event::Stop { master }]].concat());
}

/// The first cut of a bus, as the model's transfers have it.
fn model_cut(samples: &[u8], bus: Master) -> Option<Cut> {
    let transfers = transfers(samples, bus.number().into());
    let broken = transfers.iter().find(|transfer: &&Transfer| transfer.breaks_a_byte())?;
    Some(match broken.end {
        Some((sample, edge)) => Cut::Condition { bus, sample, is_start: edge == Edge::Start },
        None => Cut::End { bus },
    })
}

fn model_cuts(samples: &[u8]) -> Vec<Cut> {
    Master::BOTH.into_iter().filter_map(|bus| model_cut(samples, bus)).collect()
}

#[test]
fn each_cut_is_told_where_it_is() {
    let mut rng = Rng::new(12);
    let mut seen = [0, 0];
    let mut tell = |samples: &[u8], address: u8| {
        let expected = model_cuts(samples);
        assert_eq!(cuts(samples, address), expected);
        for cut in expected {
            seen[usize::from(matches!(cut, Cut::End { .. }))] += 1;
        }
    };
    about_bytes(0x70).iter().for_each(|samples| tell(samples, 0x70));
    for _ in 0..60 {
        let manner = Manner { broken: 15, ..any_manner(&mut rng) };
        let made = capture(&mut rng, manner, 400);
        tell(&made.samples, made.address);
        tell(&damaged(&mut rng, &made.samples), made.address);
    }
    assert!(seen.iter().all(|&times| times > 50), "{seen:?}");
}

/// A capture of full length that ends inside a byte, with and without samples that say nothing.
#[test]
fn the_end_of_a_full_capture() {
    let mut rng = Rng::new(13);
    let mut slow = file("box14.capture");
    slow.splice(0..0, vec![0x0F; MOST_SAMPLES - slow.len() + 150]);
    slow.truncate(MOST_SAMPLES);
    assert_eq!(cuts(&slow, 0x71), model_cuts(&slow));
    assert_eq!(cuts(&slow, 0x71), [Cut::End { bus: Master::One }]);
    // Here the changes alone fill the capture, and only a cut in time is told.
    let mut dense = densest(&mut rng, 0x70, MOST_SAMPLES - 40);
    dense.truncate(MOST_SAMPLES - 60);
    lengthen(&mut dense, MOST_SAMPLES);
    assert_eq!(cuts(&dense, 0x70), model_cuts(&dense));
    let mut dense = densest(&mut rng, 0x70, MOST_SAMPLES + 60);
    dense.truncate(MOST_SAMPLES);
    assert_eq!(cuts(&dense, 0x70), []);
    dense[1000..1002].copy_from_slice(&[0x0F, 0x0D]);
    let expected = [Cut::Condition { bus: Master::Zero, sample: 1001, is_start: true }];
    assert_eq!(cuts(&dense, 0x70)[..1], expected);
    assert_eq!(model_cuts(&dense)[..1], expected);
}

/// Any samples: what is refused is told in one line with its number, and nothing is written.
#[test]
fn refused_captures_are_told() {
    let mut rng = Rng::new(14);
    let mut refused = 0;
    for _ in 0..500 {
        let length = rng.below(120) as usize;
        let samples = any_samples(&mut rng, length);
        let (made, summary) = imported(&input(&samples), rng.percent(50), true);
        assert_eq!(made.output.is_some(), made.refused.is_none());
        assert_eq!(made.output.is_some(), summary.is_some());
        if let Some(said) = made.refused {
            assert!(
                said.starts_with("a.capture: refusal 12: ") && said.contains("(bus "),
                "{said}"
            );
            refused += 1;
        }
    }
    assert!(refused > 50, "{refused}");
    let (long, _) = imported(&input(&[0x0F; MOST_SAMPLES + 1]), false, true);
    let said = long.refused.unwrap();
    assert!(said.starts_with("a.capture: refusal 13: ") && !said.contains("bus"), "{said}");
}

/// Samples that repeat the one before say nothing, so a long capture may be cut down to its changes.
#[test]
fn repeated_samples_say_nothing() {
    let mut rng = Rng::new(15);
    for _ in 0..40 {
        let manner = any_manner(&mut rng);
        let made = capture(&mut rng, manner, 800);
        let mut changes = made.samples.clone();
        changes.dedup();
        let slow: Vec<u8> = made.samples.iter().flat_map(|&sample| [sample; 3]).collect();
        let events = import_capture(&made.samples, made.address);
        assert_eq!(import_capture(&changes, made.address), events);
        assert_eq!(import_capture(&slow, made.address), events);
    }
}

/// The first bytes of the transfers, as the model has them.
fn model_seen(samples: &[u8]) -> [Vec<u8>; 2] {
    [0, 1].map(|bus| {
        let transfers = transfers(samples, bus).into_iter();
        transfers.filter_map(|transfer| Some(transfer.bytes.first()?.0)).collect()
    })
}

#[test]
fn what_is_seen_is_the_models() {
    let mut rng = Rng::new(16);
    let mut seen = 0;
    for _ in 0..60 {
        let manner = any_manner(&mut rng);
        let made = capture(&mut rng, manner, 600);
        let length = rng.below(300) as usize;
        let any = any_samples(&mut rng, length);
        for samples in [&made.samples, &damaged(&mut rng, &made.samples), &any] {
            let found = Seen::of(samples);
            assert_eq!((&found.first_bytes, found.samples), (&model_seen(samples), samples.len()));
            seen += found.transfers();
        }
    }
    assert!(seen > 1000, "{seen}");
}

/// What every import says, and what it says instead of writing a trace of no events.
#[test]
fn what_is_seen_is_told() {
    let capture = input(&file("box14.capture"));
    let (_, summary) = import(&capture, of(0x71));
    let transfers: Vec<u8> = model_seen(&capture.bytes).concat();
    let times = transfers.iter().filter(|&&byte| byte / 2 == 0x71).count();
    assert_eq!(transfers.len(), times + 1);
    let [bus0, bus1] = model_seen(&capture.bytes).map(|bus| bus.len());
    let events = import_capture(&capture.bytes, 0x71).unwrap().len();
    let expected = format!(
        "a.capture: {} samples; {} transfers (bus 0: {bus0}, bus 1: {bus1}): 71h {times} times, 2Eh once; \
         1 skipped; {events} events",
        capture.bytes.len(),
        transfers.len()
    );
    assert_eq!(summary.as_deref(), Some(expected.as_str()));
    // Another address: what was seen, and no trace.
    let (made, summary) = import(&capture, of(0x70));
    assert_eq!((made.output, summary), (None, None));
    let why = format!(
        "a.capture: no transfer for 70h; seen: 71h {times} times, 2Eh once; {} transfers skipped; --empty \
         writes it all the same",
        transfers.len()
    );
    assert_eq!(made.refused.as_deref(), Some(why.as_str()));
    let (made, summary) = import(&capture, Wanted { empty: true, ..of(0x70) });
    assert_eq!(run(&made.output.unwrap()).unwrap().events, []);
    assert!(summary.unwrap().ends_with("; 0 events"));
}

/// For the device of box 14 at another address.
fn of(address: u8) -> Wanted {
    Wanted { device: Device { address, ..BOX_14 }, script: false, empty: false }
}

/// What is said where no event comes of a capture.
#[test]
fn what_has_no_event_is_told() {
    let cases: [(&[u8], &str); 2] = [
        (&[], "a.capture: no sample; it is empty; --empty"),
        (
            &[0x0F; 100],
            "a.capture: no transfer in 100 samples; bits 0 to 3 are to be SCL0, SDA0, SCL1 and",
        ),
    ];
    for (samples, expected) in cases {
        let (made, _) = import(&input(samples), of(0x71));
        assert_eq!(made.output, None);
        assert!(made.refused.as_ref().unwrap().starts_with(expected), "{:?}", made.refused);
    }
    // A transfer that ends after its address.
    let mut probe = vec![0x0F, 0x0D];
    for bit in [1, 1, 1, 0, 0, 0, 1, 0, 1] {
        probe.extend([0x0C, 0x0C | bit << 1, 0x0D | bit << 1, 0x0C | bit << 1]);
    }
    probe.extend([0x0C, 0x0D, 0x0F]);
    let (made, _) = import(&input(&probe), of(0x71));
    let why =
        "a.capture: no event: 1 transfer for 71h, but without a data byte; seen: 71h once; --empty";
    assert!(made.refused.as_ref().unwrap().starts_with(why), "{:?}", made.refused);
}
