//! The tuned stepper: the same rules, written for speed.
//!
//! Each event calls only those parts of the step that it can move: a COMMAND cannot make a loss, so
//! it does not ask. Levels are bits in the place where the answer has them.

mod arbitration;
mod registers;

use crate::reading::{read, Report};
use registers::*;

/// Runs a trace and writes four answer bytes an event. A refusal leaves the answers as they are.
pub fn run_trace(trace: &[u8], answers: &mut [u8]) -> Result<Report, u8> {
    let (report, events) = read(trace, answers.len())?;
    let mut device = Device::fresh(report.kind);
    for (event, answer) in events.chunks_exact(4).zip(answers.chunks_exact_mut(4)) {
        answer.copy_from_slice(&device.step([event[0], event[1], event[2], event[3]]));
    }
    Ok(report)
}

/// The ticks that each master owned the bus, was connected and waited, master 0's three first: what the
/// share report counts.
pub fn shared_in(trace: &[u8]) -> Result<[u64; 6], u8> {
    let (report, events) = read(trace, usize::MAX)?;
    let mut device = Device::fresh(report.kind);
    let mut counts = [0; 6];
    for event in events.chunks_exact(4) {
        let event = [event[0], event[1], event[2], event[3]];
        let [outcome, _, bus, _] = device.step(event);
        if event == [6, 0, 0, 0] && outcome == 0 {
            for (m, side) in device.sides.iter().enumerate() {
                let owns = bus & 3 == m as u8 + 1;
                let asks = side.contr & LOCK_REQ != 0;
                counts[3 * m] += u64::from(owns);
                counts[3 * m + 1] += u64::from(bus >> 2 & 3 == m as u8 + 1);
                counts[3 * m + 2] += u64::from(asks && !owns);
            }
        }
    }
    Ok(counts)
}

enum Event {
    Command(Master, u8),
    Write(Master, u8),
    Read(Master),
    Stop(Master),
    Pair(u8, u8),
    Lines { levels: u8, int_in: bool },
    Tick,
    Pulse(bool),
    Reset,
    GeneralCall(Master, u8),
}

/// Four bytes as an event, or the number of the refusal.
fn decode(bytes: [u8; 4]) -> Result<Event, u8> {
    let master = |m: u8| if m == 0 { Master::Zero } else { Master::One };
    Ok(match bytes {
        [0, m @ 0..=1, code, 0] => Event::Command(master(m), code),
        [1, m @ 0..=1, value, 0] => Event::Write(master(m), value),
        [2, m @ 0..=1, 0, 0] => Event::Read(master(m)),
        [3, m @ 0..=1, 0, 0] => Event::Stop(master(m)),
        [4, v0, v1, 0] => Event::Pair(v0, v1),
        [5, scl @ 0..=1, sda @ 0..=1, int_in @ 0..=1] => Event::Lines {
            levels: (scl * SCL) | (sda * SDA),
            int_in: int_in == 1,
        },
        [6, 0, 0, 0] => Event::Tick,
        [7, sda @ 0..=1, 0, 0] => Event::Pulse(sda == 1),
        [8, 0, 0, 0] => Event::Reset,
        [9, m @ 0..=1, code, 0] => Event::GeneralCall(master(m), code),
        [0..=9, ..] => return Err(3),
        _ => return Err(2),
    })
}

impl Device {
    /// Takes one event and gives its four answer bytes.
    pub fn step(&mut self, bytes: [u8; 4]) -> [u8; 4] {
        let mut byte_read = 0;
        let outcome = match decode(bytes) {
            Err(number) => number,
            Ok(Event::Command(m, code)) => self.command(m, code),
            Ok(Event::Write(m, value)) => self.write(m, value),
            Ok(Event::Read(m)) => {
                byte_read = self.read_byte(m);
                0
            }
            Ok(Event::Stop(m)) => self.stop(m),
            Ok(Event::Pair(v0, v1)) => self.pair(v0, v1),
            Ok(Event::Lines { levels, int_in }) => self.lines(levels, int_in),
            Ok(Event::Tick) => self.tick(),
            Ok(Event::Pulse(sda)) => self.pulse(sda),
            Ok(Event::Reset) => self.reset(0),
            Ok(Event::GeneralCall(m, code)) => self.general_call(m, code),
        };
        self.answer(outcome, byte_read)
    }

    fn answer(&self, outcome: u8, byte_read: u8) -> [u8; 4] {
        let turn = match self.turn {
            Turn::Nobody => 0,
            Turn::Claims(_, ground) => (ground as u8) << 5,
            Turn::Owns(m, ground) => (m as u8 + 1) | (ground as u8) << 5,
        };
        let switch = match self.switch {
            Switch::Open => 0,
            Switch::Initialising(..) => 0x10,
            Switch::Closed(m) => (m as u8 + 1) << 2,
        };
        let hung = (self.is_hung() as u8) << 6;
        let asserted = |side: &Side| ((side.int_status | hung) & !side.int_msk != 0) as u8;
        let outputs = asserted(&self.sides[0]) | asserted(&self.sides[1]) << 1;
        [outcome, byte_read, turn | switch, outputs | self.levels()]
    }

    fn command(&mut self, m: Master, code: u8) -> u8 {
        let side = self.side(m);
        if code & 0x78 != 0 {
            side.port = Port::Open;
            return 1;
        }
        side.port = Port::OpenForWriting;
        side.auto_increment = code & 0x80 != 0;
        side.pointer = code & 7;
        0
    }

    fn write(&mut self, m: Master, value: u8) -> u8 {
        if self.side(m).port != Port::OpenForWriting {
            return 4;
        }
        let before = self.levels();
        // Only CONTR and the drives can move the arbitration.
        let moves = matches!(self.side(m).pointer, 1 | 2);
        let acknowledged = self.write_byte(m, value);
        if moves {
            self.settle(before);
        }
        !acknowledged as u8
    }

    /// Both bytes see the state before the event. The one clash is a master that clears its mail
    /// bit while the other fills its box: the bit ends set, so the clearing comes first.
    fn pair(&mut self, v0: u8, v1: u8) -> u8 {
        if self
            .sides
            .iter()
            .any(|side| side.port != Port::OpenForWriting)
        {
            return 4;
        }
        let before = self.levels();
        let (ack0, ack1);
        if self.sides[1].pointer == 4 {
            ack1 = self.write_byte(Master::One, v1);
            ack0 = self.write_byte(Master::Zero, v0);
        } else {
            ack0 = self.write_byte(Master::Zero, v0);
            ack1 = self.write_byte(Master::One, v1);
        }
        self.settle(before);
        !(ack0 && ack1) as u8
    }

    fn stop(&mut self, m: Master) -> u8 {
        if self.side(m).port == Port::AtRest {
            return 4;
        }
        self.side(m).port = Port::AtRest;
        if matches!(self.turn, Turn::Claims(claimant, _) if claimant == m) {
            self.grant();
            self.connect();
        }
        0
    }

    fn lines(&mut self, levels: u8, int_in: bool) -> u8 {
        if self.int_in && !int_in {
            self.sides[0].int_status |= 0x01;
            self.sides[1].int_status |= 0x01;
        }
        let before = self.levels();
        self.outside = levels;
        self.int_in = int_in;
        self.settle(before);
        0
    }

    fn tick(&mut self) -> u8 {
        let before = self.levels();
        self.reserve_left = self.reserve_left.saturating_sub(1);
        if before & SCL == 0 {
            self.scl_low = (self.scl_low + 1).min(SCL_HUNG);
        }
        if before & SDA == 0 {
            self.sda_low = (self.sda_low + 1).min(SDA_HUNG);
        }
        if before == BOTH && !self.busy {
            self.idle = (self.idle + 1).min(self.kind.idle_limit());
        }
        if self.hold > 0 {
            self.hold -= 1;
            self.read_lines(before);
        }
        self.lose();
        if self.scl_low == 35 {
            self.cut();
        }
        // Who owns keeps the turn, so there is nothing to claim or to connect.
        if !matches!(self.turn, Turn::Owns(..)) {
            self.claim();
            self.grant();
            self.connect();
        }
        0
    }

    fn pulse(&mut self, sda: bool) -> u8 {
        let Switch::Initialising(m, zeros) = self.switch else {
            return 4;
        };
        if sda {
            self.side(m).contr &= !BUS_INIT;
            self.switch = Switch::Closed(m);
        } else if zeros == 8 {
            self.side(m).contr &= !(BUS_INIT | BUS_CONNECT);
            self.init_fail = true;
            self.switch = Switch::Open;
        } else {
            self.switch = Switch::Initialising(m, zeros + 1);
        }
        0
    }

    fn reset(&mut self, hold: u8) -> u8 {
        let fresh = Device::fresh(self.kind);
        *self = Device {
            outside: self.outside,
            int_in: self.int_in,
            hold,
            ..fresh
        };
        0
    }

    fn general_call(&mut self, m: Master, code: u8) -> u8 {
        if code != 0x06 {
            return 1;
        }
        let holds = self.side(m).contr & SMBUS_SWRST != 0;
        self.reset(if holds { 35 } else { 0 })
    }
}
