//! A second reader, for samples of which nobody knows what they mean: it goes from list to list with
//! the importer's parts (`capture`), and puts lines and ticks beside what they give.

use super::bus::{answer_of, Fault, ReadByte, Setting, Sign, LINES};
use super::chip::Flaw;
use super::played::Played;
use crate::capture::{bus_events, edges, transfers, Edge, Purpose, Transfer};
use crate::event::make::*;
use crate::Device;

/// What is true of any samples.
pub fn reread(setting: Setting, samples: &[u8]) -> Played {
    let buses = [transfers(samples, 0), transfers(samples, 1)];
    let events = events(setting, samples, &buses);
    let reads = reads(setting, samples, &buses, &events);
    let signs = [0, 1].map(|bus| signs(samples, bus, &buses[bus]));
    let samples = samples.to_vec();
    let (flaw, phase) = (Flaw::None, 0);
    Played { setting, flaw, phase, samples, events, reads, faults: faults(&buses), signs }
}

/// The conditions that break a byte.
fn faults(buses: &[Vec<Transfer>; 2]) -> Vec<Fault> {
    let of_bus = |bus: usize| {
        let broken = buses[bus].iter().filter(|transfer| transfer.breaks_a_byte());
        let ends = broken.filter_map(|transfer| transfer.end);
        ends.map(move |(sample, _)| Fault { sample: sample as u64, bus })
    };
    let mut faults: Vec<Fault> = of_bus(0).chain(of_bus(1)).collect();
    faults.sort_by_key(|fault| (fault.sample, fault.bus));
    faults
}

/// All events: in each sample LINES, then those of the buses, then TICK.
fn events(setting: Setting, samples: &[u8], buses: &[Vec<Transfer>; 2]) -> Vec<(u64, [u8; 4])> {
    let mut all: Vec<(u64, u8, [u8; 4])> = downstream(samples);
    for (bus, found) in buses.iter().enumerate() {
        let events = bus_events(found, bus as u8, setting.address);
        all.extend(events.iter().map(|(sample, event)| (*sample as u64, 1, *event)));
    }
    let ticks = (1..samples.len() as u64).filter(|at| at % setting.samples_per_tick == 0);
    all.extend(ticks.map(|at| (at, 2, tick())));
    // Master 0 was listed first, and a sort keeps what is equal in its order.
    all.sort_by_key(|(sample, part, _)| (*sample, *part));
    paired(&all)
}

/// LINES where one of the three lines changes, from three that are high.
fn downstream(samples: &[u8]) -> Vec<(u64, u8, [u8; 4])> {
    let levels = |sample: u8| [4, 5, 6].map(|place| sample >> place & 1);
    let before = [LINES].into_iter().chain(samples.iter().copied());
    let moved = before.zip(samples).zip(0..).filter(|((was, is), _)| levels(*was) != levels(**is));
    let event = |sample: u8| {
        let [scl, sda, int_in] = levels(sample);
        lines(scl, sda, int_in)
    };
    moved.map(|((_, is), at)| (at, 0, event(*is))).collect()
}

/// Two WRITEs of one sample as PAIR.
fn paired(all: &[(u64, u8, [u8; 4])]) -> Vec<(u64, [u8; 4])> {
    let mut events: Vec<(u64, [u8; 4])> = vec![];
    for &(sample, _, event) in all {
        match (events.last_mut(), event) {
            (Some((at, before @ [1, 0, ..])), [1, 1, second, _]) if *at == sample => {
                *before = pair(before[2], second);
            }
            _ => events.push((sample, event)),
        }
    }
    events
}

/// Each byte that is read: the sample where SCL falls before it, its ninth clock, and its bits.
fn bytes_read(
    setting: Setting,
    samples: &[u8],
    bus: usize,
    found: &[Transfer],
) -> Vec<(u64, u64, u8)> {
    let low = |at: &usize| samples[*at] >> (2 * bus) & 1 == 0;
    let reading = found.iter().filter(|one| one.purpose(setting.address) == Purpose::Read);
    let bytes = reading.flat_map(|one| one.bytes.windows(2));
    bytes
        .map(|two| {
            let fall = (two[0].1..samples.len()).find(low).expect("a clock falls before it rises");
            (fall as u64, two[1].1 as u64, two[1].0)
        })
        .collect()
}

/// The READs, with what a right device would have answered since SCL fell before the byte.
fn reads(
    setting: Setting,
    samples: &[u8],
    buses: &[Vec<Transfer>; 2],
    events: &[(u64, [u8; 4])],
) -> Vec<ReadByte> {
    let mut device = Device::power_up_of(setting.kind);
    // What each master would have been answered before each event, and what the event answered.
    let mut before = vec![];
    let mut answered = vec![];
    for (_, event) in events {
        before.push([0, 1].map(|master| answer_of(&device, master)));
        answered.push(device.step(*event)[1]);
    }
    let heard = [0, 1].map(|bus| bytes_read(setting, samples, bus, &buses[bus]));
    let mut reads = vec![];
    for (place, (sample, event)) in
        events.iter().enumerate().filter(|(_, (_, event))| event[0] == 2)
    {
        let master = usize::from(event[1]);
        let of_sample = heard[master].iter().find(|(_, ninth, _)| ninth == sample);
        let &(fall, _, heard) = of_sample.expect("a READ has a byte");
        let from = events.partition_point(|(at, _)| *at < fall);
        let expected = answered[place];
        let shown = before[from..=place].iter().any(|answers| answers[master] == heard);
        let overtaken = heard != expected && shown;
        reads.push(ReadByte { sample: *sample, master, heard, expected, overtaken });
    }
    reads
}

/// The conditions and bytes from START to STOP.
fn signs(samples: &[u8], bus: usize, found: &[Transfer]) -> Vec<(u64, Sign)> {
    let edges = edges(samples, bus);
    let starts = edges.iter().filter(|(_, edge)| *edge == Edge::Start);
    let mut signs = vec![];
    for ((start, _), transfer) in starts.zip(found) {
        signs.push((*start as u64, Sign::Start));
        let bytes = transfer.bytes.iter();
        signs.extend(bytes.map(|(value, sample)| (*sample as u64, Sign::Byte(*value))));
        if let Some((sample, Edge::Stop)) = transfer.end {
            signs.push((sample as u64, Sign::Stop));
        }
    }
    signs
}
