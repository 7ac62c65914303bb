//! The importer of captures on both sides (document 02, #104).

use gunwaleish::boundary;
use model::capture::{events_of, MOST_SAMPLES};
use model::capture_damage::{about_the_most, any_samples, damaged, densest, with_noise};
use model::captures::{any_manner, capture, Manner};
use model::import_capture;
use model::rng::Rng;
use model::straps::pins_of;
use model::trace::four;
use model::traces::trace_of;

use crate::check::pattern;
use crate::figures::{differ, Difference, Figures};
use crate::words::event_in_words;

/// Imports a capture into a buffer of this room. Gives the number of the answer.
pub fn check_import(samples: &[u8], address: u8, room: usize) -> Result<u8, Difference> {
    let mut expected = pattern(room);
    let imported = import_capture(samples, address, &mut expected);
    let mut events = pattern(room);
    let packed = boundary::import_capture(samples, address, &mut events);
    same_events(imported.events, &expected, &events)?;
    if packed != u64::from(imported.number) + 256 * imported.events as u64 {
        return differ(format!(
            "reports of the importer differ\n  model:   number {}, {} events\n  library: number {}, \
             {} events",
            imported.number,
            imported.events,
            packed % 256,
            packed / 256
        ));
    }
    Ok(imported.number)
}

/// Every byte of the buffer counts, also those that have to stay.
pub fn same_events(count: usize, expected: &[u8], events: &[u8]) -> Result<(), Difference> {
    let Some(place) = (0..expected.len()).find(|&at| expected[at] != events[at]) else {
        return Ok(());
    };
    if place >= 4 * count {
        return differ(format!("event byte {place} had to stay, and was written"));
    }
    let first = place - place % 4;
    differ(format!(
        "event {} of {count} is another\n  model:   {}\n  library: {}",
        place / 4 + 1,
        event_in_words(four(&expected[first..])),
        event_in_words(four(&events[first..]))
    ))
}

/// Random calls of the importer: good captures and damaged ones.
pub fn importer_calls(rng: &mut Rng, figures: &mut Figures) {
    for _ in 0..4 {
        let manner = any_manner(rng);
        let length = rng.between(1, 1500) as usize;
        good_and_damaged(rng, manner, length, figures);
        let broken = Manner { broken: 15, ..any_manner(rng) };
        let length = rng.between(1, 700) as usize;
        good_and_damaged(rng, broken, length, figures);
    }
    for _ in 0..8 {
        let length = rng.below(40) as usize;
        let samples = any_samples(rng, length);
        figures.import(&samples, rng.between(0x08, 0x77) as u8, 16);
    }
    if rng.percent(10) {
        long_captures(rng, figures);
    }
}

fn good_and_damaged(rng: &mut Rng, manner: Manner, length: usize, figures: &mut Figures) {
    let mut made = capture(rng, manner, length);
    if rng.percent(50) {
        with_noise(rng, &mut made.samples);
    }
    import_in_rooms(rng, &made.samples, made.address, figures);
    for _ in 0..3 {
        let bad = damaged(rng, &made.samples);
        figures.damage("captures", &made.samples, &bad);
        import_in_rooms(rng, &bad, made.address, figures);
    }
    // The same lines seen by a device of another address, and by one that cannot be.
    figures.import(&made.samples, rng.between(0x08, 0x77) as u8, 4096);
    let outside = rng.pick(&[0x00, 0x07, 0x78, 0x7F, 0x80 | made.address, 0xFF]);
    figures.import(&made.samples, outside, rng.pick(&[0, 4096]));
}

/// Rooms that are one byte short, exact, longer, and far too small. What was imported is run too.
fn import_in_rooms(rng: &mut Rng, samples: &[u8], address: u8, figures: &mut Figures) {
    let Ok(events) = events_of(samples, address) else {
        return figures.import(samples, address, rng.pick(&[0, 3, 400]));
    };
    let length = 4 * events.len();
    figures.import(samples, address, length);
    figures.import(samples, address, length + rng.pick(&[1, 4, 9]));
    if length > 0 {
        figures.import(samples, address, length - 1);
        figures.import(samples, address, rng.below(length as u64) as usize);
        let trace = trace_of(pins_of(address).unwrap_or_default(), &events);
        figures.run(&trace, length);
    }
}

/// As long as a capture may be, one sample longer, and as many events as there can be.
fn long_captures(rng: &mut Rng, figures: &mut Figures) {
    let manner = any_manner(rng);
    let made = capture(rng, manner, 32_000);
    for samples in about_the_most(&made.samples) {
        figures.import(&samples, made.address, 4 * 4096);
        figures.import(&samples, rng.pick(&[0x07, 0x78]), 0);
    }
    let length = MOST_SAMPLES - rng.pick(&[0, 0, 1, 17, 18]);
    let dense = densest(rng, made.address, length);
    import_in_rooms(rng, &dense, made.address, figures);
    let bad = damaged(rng, &dense);
    figures.damage("captures", &dense, &bad);
    import_in_rooms(rng, &bad, made.address, figures);
}

impl Figures {
    /// Imports a capture on both sides and counts it.
    pub fn import(&mut self, samples: &[u8], address: u8, room: usize) {
        match check_import(samples, address, room) {
            Ok(number) => {
                self.answered("import", number);
                // What is seen does not depend on the room, so 9 is left out.
                if number != 9 && number != 11 {
                    self.sights.see(samples, address);
                }
            }
            Err(difference) => {
                let call = format!("address {address:02X}h, room {room}");
                self.tell("capture", samples, format!("{call}; {difference}"))
            }
        }
    }
}
