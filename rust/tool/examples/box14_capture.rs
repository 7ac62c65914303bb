//! Draws `traces/box14.capture`: both upstream buses in the incident of box 14, as a logic analyser
//! at 1 MHz sees buses of 100 kHz. It prints the samples on standard output.

use std::io::Write;

use model::pen::{samples_of, Pen};
use model::rng::Rng;

/// The first bytes of transfers to the arbiter at 71h, and to a fan monitor at 2Eh behind it.
const ARBITER: u8 = 0xE2;
const ARBITER_READ: u8 = 0xE3;
const FAN_MONITOR: u8 = 0x5C;

/// Every level lasts five samples, so a clock takes ten.
const SAMPLES_OF_A_LEVEL: usize = 5;

/// The registers of the arbiter.
const CONTR: u8 = 1;
const RT: u8 = 3;
const INT_STATUS: u8 = 4;

struct Bus(Pen);

impl Bus {
    /// An idle bus, whose every level is one sample until the capture is drawn.
    fn new() -> Bus {
        Bus(Pen::new(Rng::new(14), 1, 1, 1))
    }

    fn bytes(&mut self, bytes: &[u8]) {
        for &byte in bytes {
            self.0.byte(byte, 0);
        }
    }

    fn write(&mut self, bytes: &[u8]) {
        self.0.start(0);
        self.bytes(bytes);
        self.stop();
    }

    /// A register's byte by way of a repeated START. The last byte of a read is not acknowledged.
    fn read(&mut self, register: u8, value: u8) {
        self.0.start(0);
        self.bytes(&[ARBITER, register]);
        self.0.start(1);
        self.bytes(&[ARBITER_READ]);
        self.0.byte(value, 1);
        self.stop();
    }

    fn stop(&mut self) {
        self.0.stop(1);
        self.0.rest(20);
    }
}

/// Controller 0 takes the bus with RT 00h, which holds until let go, and writes to a fan monitor.
/// Meanwhile controller 1 asks for 50 ticks of the bus, and looks what became of it.
pub fn samples() -> Vec<u8> {
    let [mut bus0, mut bus1] = [Bus::new(), Bus::new()];
    bus0.0.rest(20);
    bus0.write(&[ARBITER, RT, 0x00]);
    bus0.write(&[ARBITER, CONTR, 0x05]);
    bus1.0.rest(bus0.0.levels.len() + 30);
    bus0.write(&[FAN_MONITOR, 0x40, 0x7F]);
    bus1.write(&[ARBITER, RT, 0x32]);
    bus1.write(&[ARBITER, CONTR, 0x05]);
    bus1.read(CONTR, 0x05);
    bus1.read(INT_STATUS, 0x00);
    let levels = samples_of([&bus0.0.levels, &bus1.0.levels]);
    levels.into_iter().flat_map(|level| [level; SAMPLES_OF_A_LEVEL]).collect()
}

fn main() -> std::io::Result<()> {
    std::io::stdout().write_all(&samples())
}
