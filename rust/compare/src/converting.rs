//! The converter of old traces on both sides (document 02, #105).

use gunwaleish::boundary;
use model::convert_trace;
use model::damage::{damage, ALL_DAMAGES};
use model::rng::Rng;
use model::straps::pins_of;
use model::trace::MOST_EVENTS;
use model::traces::{event_list, old_trace_of, trace};

use crate::check::pattern;
use crate::figures::{Difference, Figures};
use crate::writing::same_written;

/// Converts a trace into a buffer of this room. Gives the number of the answer.
pub fn check_convert(old: &[u8], room: usize) -> Result<u8, Difference> {
    let mut expected = pattern(room);
    let written = convert_trace(old, &mut expected);
    let mut trace = pattern(room);
    let packed = boundary::convert_trace(old, &mut trace);
    same_written(written, packed, &expected, &trace)?;
    Ok(written.number)
}

/// Random calls of the converter: old traces in rooms that are too small, exact and larger; cut,
/// damaged and new ones.
pub fn converter_calls(rng: &mut Rng, figures: &mut Figures) {
    for _ in 0..6 {
        let pins = pins_of(rng.between(0x08, 0x77) as u8).unwrap_or_default();
        let count = rng.below(41) as usize;
        let old = old_trace_of(pins, &event_list(rng.below(1 << 31), count));
        let length = old.len() + 2;
        for room in [0, length - 2, length - 1, length, length + 7] {
            figures.convert(&old, room);
        }
        figures.convert(&old[..rng.below(old.len() as u64) as usize], length);
        let new = trace(rng.below(1 << 31), 1 + count);
        figures.convert(&new, new.len() + 2);
        // What is wrong with a new trace is often wrong with an old one.
        let any = rng.pick(&ALL_DAMAGES);
        let bad = damage(rng, &new, any).trace;
        figures.damage("traces", &new, &bad);
        figures.convert(&bad, bad.len() + 2);
        let strange: Vec<u8> = (0..rng.below(30)).map(|_| rng.byte() % 6).collect();
        figures.convert(&strange, 40);
    }
    let most = MOST_EVENTS + rng.below(2) as usize;
    let old = old_trace_of([0; 4], &vec![[6, 0, 0, 0]; most]);
    figures.convert(&old, old.len() + rng.pick(&[1, 2]));
}

impl Figures {
    /// Gives an old trace its third section on both sides and counts it.
    pub fn convert(&mut self, old: &[u8], room: usize) {
        match check_convert(old, room) {
            Ok(number) => self.answered("convert", number),
            Err(difference) => {
                self.tell("trace", old, format!("converted in room {room}; {difference}"))
            }
        }
    }
}
