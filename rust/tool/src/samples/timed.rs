//! The events of an imported capture with the time and the bus below between them.
//!
//! The library gives the events alone. A listener without time and without the bus below is proved to hear
//! exactly these, so its count after each sample tells in which sample each of them stands.

use gunwaleish::{Event, Refusal, Watch, WatchSettings};

use super::Taken;
use crate::device::Device;

/// The events with a TICK after so many samples each, and LINES where the bus below changes, if it is there:
/// in one sample LINES, then the events of the buses above, then TICK.
pub fn timed(
    taken: &Taken,
    events: &[Event],
    device: Device,
    every: u32,
) -> Result<Vec<Event>, Refusal> {
    let mut all: Vec<(u64, u8, Event)> = vec![];
    let lines = |&(place, sample): &(u64, u8)| {
        let high = |bit: u8| sample >> bit & 1 == 1;
        (place, 0, Event::Lines { scl: high(4), sda: high(5), int_in: high(6) })
    };
    all.extend(taken.lines.iter().map(lines));
    all.extend(
        places(taken, device)?.into_iter().zip(events).map(|(place, event)| (place, 1, *event)),
    );
    let every = u64::from(every);
    let ticks = (1..).map(|tick| tick * every).take_while(|place| *place < taken.count);
    all.extend(ticks.map(|place| (place, 2, Event::Tick)));
    all.sort_by_key(|(place, part, _)| (*place, *part));
    Ok(all.into_iter().map(|(_, _, event)| event).collect())
}

/// The sample of each event.
fn places(taken: &Taken, device: Device) -> Result<Vec<u64>, Refusal> {
    let Device { address, part, .. } = device;
    let mut watch = Watch::fresh(WatchSettings { part, address, every: 0, below: false })?;
    let mut places = vec![];
    for (number, sample) in taken.samples().iter().enumerate() {
        let before = watch.events();
        watch.listen(&[*sample]);
        let given = (watch.events() - before) as usize;
        places.extend(std::iter::repeat_n(taken.place(number), given));
    }
    Ok(places)
}
