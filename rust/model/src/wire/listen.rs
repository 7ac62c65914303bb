//! A listener: it has the samples and nothing else. It makes the events of #104 and of the lines and
//! ticks around them, steps the independent model, and holds each byte that is read on the bus against
//! the model's answer.
//!
//! #104 refuses a capture with a START or STOP inside a byte (12). Who listens goes on: the condition
//! is counted, the byte is lost, and the condition is what it is: a START begins a transfer, and a
//! STOP ends one, with its event if one is due.

use super::bus::{answer_of, Fault, ReadByte, Setting, LINES};
use crate::event::make::*;
use crate::Device;

/// What was heard in a sample.
#[derive(Clone, Copy, Debug, PartialEq, Eq)]
pub enum Note {
    /// An event and the model's answer to it.
    Event {
        sample: u64,
        event: [u8; 4],
        answer: [u8; 4],
    },
    /// The byte of a READ. It follows the event.
    Read(ReadByte),
    Fault(Fault),
}

/// What the byte that comes next is.
#[derive(Clone, Copy, Debug, PartialEq, Eq)]
enum Awaited {
    /// Nothing: no START has come since the last STOP.
    Start,
    Address,
    Command,
    Data,
    Read,
    Call,
    /// A byte that says nothing to the device.
    Nothing,
}

/// One bus as far as it was heard.
#[derive(Clone, Debug)]
struct Bus {
    awaited: Awaited,
    /// The clocks since the last byte or START, and their bits.
    clocks: u32,
    bits: u8,
    /// A COMMAND or READ came since the last STOP.
    due: bool,
    /// What the model answered since SCL fell after the byte before, while a byte is read.
    answers: Vec<u8>,
}

/// What one bus has to say in a sample.
#[derive(Clone, Copy, Debug, Default)]
struct Said {
    event: Option<[u8; 4]>,
    /// The byte of the event, if it is a READ.
    heard: u8,
    fault: bool,
}

pub struct Listener {
    setting: Setting,
    /// Bits 4 to 6 are wired. If not, they are taken as high.
    wired: bool,
    device: Device,
    buses: [Bus; 2],
    /// The sample before, and the number of the next one.
    last: Option<u8>,
    at: u64,
    /// Samples until the next TICK.
    to_tick: u64,
    notes: Vec<Note>,
}

impl Listener {
    pub fn new(setting: Setting, wired: bool) -> Listener {
        let bus =
            || Bus { awaited: Awaited::Start, clocks: 0, bits: 0, due: false, answers: vec![] };
        Listener {
            setting,
            wired,
            device: Device::power_up_of(setting.kind),
            buses: [bus(), bus()],
            last: None,
            at: 0,
            to_tick: setting.samples_per_tick,
            notes: vec![],
        }
    }

    /// Hears the samples that come next.
    pub fn hear(&mut self, chunk: &[u8]) -> Vec<Note> {
        for &sample in chunk {
            self.sample(sample | if self.wired { 0 } else { LINES });
        }
        std::mem::take(&mut self.notes)
    }

    /// The samples end here: the buses that end inside a byte. "With no clock or one since" the last
    /// byte or START they do not.
    pub fn ends_inside(&self) -> [bool; 2] {
        [0, 1].map(|bus| self.buses[bus].is_inside())
    }

    fn sample(&mut self, sample: u8) {
        match self.last.replace(sample) {
            None => self.lines(LINES, sample),
            Some(before) => {
                if (before ^ sample) & 0x7F != 0 {
                    self.begin_answers(before, sample);
                    self.lines(before, sample);
                    self.upstream(before, sample);
                }
                self.to_tick -= 1;
                if self.to_tick == 0 {
                    self.to_tick = self.setting.samples_per_tick;
                    self.step(tick());
                }
            }
        }
        self.at += 1;
    }

    /// SCL falls and a byte is to be read: the chip begins to show it, by what it is before this
    /// sample's events.
    fn begin_answers(&mut self, before: u8, sample: u8) {
        for (master, bus) in self.buses.iter_mut().enumerate() {
            let falls = (before & !sample) >> (2 * master) & 1 == 1;
            if falls && bus.awaited == Awaited::Read && bus.clocks == 0 {
                bus.answers = vec![answer_of(&self.device, master)];
            }
        }
    }

    fn lines(&mut self, before: u8, sample: u8) {
        if (before ^ sample) & LINES != 0 {
            self.step(lines((sample >> 4) & 1, (sample >> 5) & 1, (sample >> 6) & 1));
        }
    }

    fn upstream(&mut self, before: u8, sample: u8) {
        if (before ^ sample) & 0x0F == 0 {
            return;
        }
        let address = self.setting.address;
        let said = [0, 1].map(|bus: usize| {
            let levels = |sample: u8| (sample >> (2 * bus)) & 3;
            self.buses[bus].hear(levels(before), levels(sample), bus as u8, address)
        });
        match said.map(|said| said.event) {
            [Some([1, _, v0, _]), Some([1, _, v1, _])] => {
                self.step(pair(v0, v1));
            }
            _ => said.iter().for_each(|said| self.say(*said)),
        }
        for (bus, said) in said.iter().enumerate() {
            if said.fault {
                self.notes.push(Note::Fault(Fault { sample: self.at, bus }));
            }
        }
    }

    fn say(&mut self, said: Said) {
        let Some(event) = said.event else {
            return;
        };
        let expected = self.step(event)[1];
        if event[0] != 2 {
            return;
        }
        let (sample, master, heard) = (self.at, usize::from(event[1]), said.heard);
        let answers = std::mem::take(&mut self.buses[master].answers);
        let overtaken = heard != expected && answers.contains(&heard);
        self.notes.push(Note::Read(ReadByte { sample, master, heard, expected, overtaken }));
    }

    fn step(&mut self, event: [u8; 4]) -> [u8; 4] {
        // What a master that reads a byte just now could have been shown before this event.
        for (master, bus) in self.buses.iter_mut().enumerate() {
            if !bus.answers.is_empty() {
                bus.answers.push(answer_of(&self.device, master));
            }
        }
        let answer = self.device.step(event);
        self.notes.push(Note::Event { sample: self.at, event, answer });
        answer
    }
}

impl Bus {
    /// "From the second on it is inside a byte." Clocks outside START to STOP are not counted.
    fn is_inside(&self) -> bool {
        self.clocks >= 2
    }

    /// Hears one sample after another, SCL in bit 0 and SDA in bit 1.
    fn hear(&mut self, before: u8, levels: u8, master: u8, address: u8) -> Said {
        match (before, levels) {
            (0b00 | 0b10, 0b01) => self.clock(0, master, address),
            (0b00 | 0b10, 0b11) => self.clock(1, master, address),
            (0b11, 0b01) => self.condition(Awaited::Address, None),
            (0b01, 0b11) => {
                let due = std::mem::take(&mut self.due);
                self.condition(Awaited::Start, due.then_some(stop(master)))
            }
            _ => Said::default(),
        }
    }

    /// A START or STOP: what is awaited after it, and its event.
    fn condition(&mut self, awaited: Awaited, event: Option<[u8; 4]>) -> Said {
        let fault = self.is_inside();
        self.awaited = awaited;
        self.clocks = 0;
        self.answers.clear();
        Said { event, heard: 0, fault }
    }

    fn clock(&mut self, bit: u8, master: u8, address: u8) -> Said {
        if self.awaited == Awaited::Start {
            return Said::default();
        }
        self.clocks += 1;
        if self.clocks < 9 {
            self.bits = self.bits << 1 | bit;
            return Said::default();
        }
        self.clocks = 0;
        let byte = self.bits;
        let event = match self.awaited {
            Awaited::Command => Some(command(master, byte)),
            Awaited::Data => Some(write(master, byte)),
            Awaited::Read => Some(read(master)),
            Awaited::Call => Some(general_call(master, byte)),
            _ => None,
        };
        self.due |= matches!(self.awaited, Awaited::Command | Awaited::Read);
        self.awaited = self.after(byte, address);
        Said { event, heard: byte, fault: false }
    }

    /// What is awaited after a byte.
    fn after(&self, byte: u8, address: u8) -> Awaited {
        match self.awaited {
            Awaited::Address if byte == 0 => Awaited::Call,
            Awaited::Address if byte == 2 * address => Awaited::Command,
            Awaited::Address if byte == 2 * address + 1 => Awaited::Read,
            Awaited::Command | Awaited::Data => Awaited::Data,
            Awaited::Read => Awaited::Read,
            _ => Awaited::Nothing,
        }
    }
}

/// All that was heard, list by list.
#[derive(Clone, Debug, Default, PartialEq, Eq)]
pub struct Heard {
    pub events: Vec<(u64, [u8; 4])>,
    pub reads: Vec<ReadByte>,
    pub faults: Vec<Fault>,
}

impl Heard {
    pub fn take(&mut self, notes: Vec<Note>) {
        for note in notes {
            match note {
                Note::Event { sample, event, .. } => self.events.push((sample, event)),
                Note::Read(read) => self.reads.push(read),
                Note::Fault(fault) => self.faults.push(fault),
            }
        }
    }

    pub fn first_wrong(&self) -> Option<u64> {
        self.reads.iter().find(|read| read.is_wrong()).map(|read| read.sample)
    }
}

/// Hears a whole capture at once.
pub fn listen(setting: Setting, samples: &[u8]) -> Heard {
    let mut heard = Heard::default();
    heard.take(Listener::new(setting, true).hear(samples));
    heard
}
