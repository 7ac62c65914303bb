//! Counts what is seen in captures (document 02, #104), as `happenings` does for runs. It is told
//! from the model's own lists of edges and transfers.

use crate::capture::MOST_SAMPLES;
use crate::capture::{bus_events, edges, events_of, transfers, Edge, Purpose, Transfer};
use crate::seen::Happenings;

/// The names of all sights that random captures have to reach.
pub const SIGHTS: &[&str] = &[
    // Events that a capture gives.
    "capture gives COMMAND",
    "capture gives WRITE",
    "capture gives READ",
    "capture gives STOP",
    "capture gives PAIR",
    "capture gives GENERAL CALL",
    "capture gives no event",
    // Transfers.
    "transfer: written, with data",
    "transfer: written, no data",
    "transfer: read, with data",
    "transfer: read, no data",
    "transfer: general call, one byte",
    "transfer: general call, more bytes",
    "transfer: general call, no data",
    "transfer: another address",
    "transfer: address 01h",
    "transfer: own address with bit 7 the other way",
    "transfer: no byte at all",
    // Ends of transfers.
    "no clock before a repeated START",
    "one clock before a repeated START",
    "no clock before a STOP",
    "one clock before a STOP",
    "no clock before the end of the capture",
    "one clock before the end of the capture",
    "START and STOP with no clock between",
    "STOP not given",
    "STOP given after a repeated START to another address",
    "STOP given after a general call in the same talk",
    // Outside START to STOP.
    "clocks outside START to STOP",
    "STOP outside START to STOP",
    // Both masters at one sample.
    "one sample: two WRITEs",
    "one sample: two COMMANDs",
    "one sample: COMMAND and WRITE",
    "one sample: READ and WRITE",
    "one sample: STOP and another event",
    "one sample: two STOPs",
    // Lines.
    "SDA changes as SCL rises",
    "SDA changes as SCL falls",
    "SDA changes while SCL is low",
    "bits 4 to 7 not 0",
    // Refusal 12.
    "12: START at two clocks",
    "12: STOP at two clocks",
    "12: end at two clocks",
    "12: START at eight clocks",
    "12: STOP at eight clocks",
    "12: end at eight clocks",
    "12: in a transfer to another address",
    "12: on bus 0 alone",
    "12: on bus 1 alone",
    // Lengths.
    "no sample",
    "one sample",
    "32768 samples",
    "32769 samples",
    "3640 events",
];

impl Happenings {
    /// Looks at a capture for a good address.
    pub fn see(&mut self, samples: &[u8], address: u8) {
        let length = samples.len();
        self.note(length == 0, "no sample");
        self.note(length == 1, "one sample");
        self.note(length == MOST_SAMPLES, "32768 samples");
        self.note(length == MOST_SAMPLES + 1, "32769 samples");
        if length > MOST_SAMPLES {
            return;
        }
        self.note(samples.iter().any(|sample| sample >> 4 != 0), "bits 4 to 7 not 0");
        let buses = [transfers(samples, 0), transfers(samples, 1)];
        for (bus, list) in buses.iter().enumerate() {
            self.lines_of_a_bus(samples, bus);
            self.outside(samples, bus);
            list.iter().for_each(|transfer| self.transfer(transfer, address));
            self.stops(list, address);
        }
        let broken = [0, 1].map(|bus: usize| buses[bus].iter().any(Transfer::breaks_a_byte));
        self.note(broken == [true, false], "12: on bus 0 alone");
        self.note(broken == [false, true], "12: on bus 1 alone");
        if let Ok(events) = events_of(samples, address) {
            self.events(&events);
            self.one_sample(&buses, address);
        }
    }

    fn events(&mut self, events: &[[u8; 4]]) {
        let names = [(0, "COMMAND"), (1, "WRITE"), (2, "READ"), (3, "STOP"), (4, "PAIR")];
        for (kind, name) in names.into_iter().chain([(9, "GENERAL CALL")]) {
            let some = events.iter().any(|event| event[0] == kind);
            self.note(some, &format!("capture gives {name}"));
        }
        self.note(events.is_empty(), "capture gives no event");
        self.note(events.len() == 3640, "3640 events");
    }

    fn lines_of_a_bus(&mut self, samples: &[u8], bus: usize) {
        let levels = |sample: u8| ((sample >> (2 * bus)) & 1, (sample >> (2 * bus + 1)) & 1);
        let mut seen = [false; 3];
        for pair in samples.windows(2) {
            let ((scl, sda), (new_scl, new_sda)) = (levels(pair[0]), levels(pair[1]));
            if sda != new_sda {
                match (scl, new_scl) {
                    (0, 1) => seen[0] = true,
                    (1, 0) => seen[1] = true,
                    (0, 0) => seen[2] = true,
                    _ => {}
                }
            }
        }
        let names = ["as SCL rises", "as SCL falls", "while SCL is low"];
        for (some, name) in seen.into_iter().zip(names) {
            self.note(some, &format!("SDA changes {name}"));
        }
    }

    /// Clocks and STOPs after a STOP, or before the first condition.
    fn outside(&mut self, samples: &[u8], bus: usize) {
        let edges = edges(samples, bus);
        let mut inside = false;
        for (_, edge) in edges {
            match edge {
                Edge::Start => inside = true,
                Edge::Clock(_) => self.note(!inside, "clocks outside START to STOP"),
                Edge::Stop => {
                    self.note(!inside, "STOP outside START to STOP");
                    inside = false;
                }
            }
        }
    }

    fn transfer(&mut self, transfer: &Transfer, address: u8) {
        self.end_of(transfer, address);
        let Some((first, _)) = transfer.bytes.first() else {
            return self.note(true, "transfer: no byte at all");
        };
        let data = transfer.bytes.len() - 1;
        let amount = if data > 0 { "with data" } else { "no data" };
        match transfer.purpose(address) {
            Purpose::Write => self.note(true, &format!("transfer: written, {amount}")),
            Purpose::Read => self.note(true, &format!("transfer: read, {amount}")),
            Purpose::GeneralCall => {
                let amount = ["no data", "one byte", "more bytes"][data.min(2)];
                self.note(true, &format!("transfer: general call, {amount}"));
            }
            Purpose::Other => self.note(true, "transfer: another address"),
        }
        self.note(*first == 0x01, "transfer: address 01h");
        let turned = *first == (2 * address) ^ 0x80;
        self.note(turned, "transfer: own address with bit 7 the other way");
    }

    fn end_of(&mut self, transfer: &Transfer, address: u8) {
        let (condition, at_end) = match transfer.end {
            Some((_, Edge::Start)) => ("START", "a repeated START"),
            Some(_) => ("STOP", "a STOP"),
            None => ("end", "the end of the capture"),
        };
        let left = transfer.clocks_left;
        self.note(left == 0, &format!("no clock before {at_end}"));
        self.note(left == 1, &format!("one clock before {at_end}"));
        self.note(left == 2, &format!("12: {condition} at two clocks"));
        self.note(left == 8, &format!("12: {condition} at eight clocks"));
        let other = !transfer.bytes.is_empty() && transfer.purpose(address) == Purpose::Other;
        self.note(transfer.breaks_a_byte() && other, "12: in a transfer to another address");
        let at_once = transfer.bytes.is_empty() && left == 0 && transfer.ends_in_stop();
        self.note(at_once, "START and STOP with no clock between");
    }

    /// What lies between one STOP and the next.
    fn stops(&mut self, list: &[Transfer], address: u8) {
        for talk in list.split_inclusive(Transfer::ends_in_stop) {
            let Some(last) = talk.last().filter(|last| last.ends_in_stop()) else {
                continue;
            };
            let opens = |one: &Transfer| {
                one.bytes.len() > 1
                    && matches!(one.purpose(address), Purpose::Write | Purpose::Read)
            };
            let due = talk.iter().any(opens);
            self.note(!due, "STOP not given");
            let to_another = !last.bytes.is_empty() && last.purpose(address) == Purpose::Other;
            self.note(due && to_another, "STOP given after a repeated START to another address");
            let called = talk.iter().any(|one| one.purpose(address) == Purpose::GeneralCall);
            self.note(due && called, "STOP given after a general call in the same talk");
        }
    }

    fn one_sample(&mut self, buses: &[Vec<Transfer>; 2], address: u8) {
        let of_1 = bus_events(&buses[1], 1, address);
        for (sample, event) in bus_events(&buses[0], 0, address) {
            let Ok(place) = of_1.binary_search_by_key(&sample, |(sample, _)| *sample) else {
                continue;
            };
            let mut kinds = [event[0], of_1[place].1[0]];
            kinds.sort();
            let name = match kinds {
                [1, 1] => "two WRITEs",
                [0, 0] => "two COMMANDs",
                [0, 1] => "COMMAND and WRITE",
                [1, 2] => "READ and WRITE",
                [3, 3] => "two STOPs",
                [_, 3] | [3, _] => "STOP and another event",
                _ => continue,
            };
            self.note(true, &format!("one sample: {name}"));
        }
    }
}
