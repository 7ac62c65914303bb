//! Draws the two lines of one upstream bus, sample by sample, for captures. Document 02, #104.
//! It only shapes the cases. It says nothing about what is right.

use crate::rng::Rng;

pub struct Pen {
    /// SCL in bit 0 and SDA in bit 1, one byte a sample.
    pub levels: Vec<u8>,
    /// All that is chosen here is chosen by this. So two pens with equal timing that draw the same
    /// things draw them at the same samples, whatever bits they draw.
    timing: Rng,
    /// The most samples that a level lasts. With 1 the pen draws as densely as a bus can be drawn.
    slowest: u64,
}

impl Pen {
    /// A pen whose first sample has these levels.
    pub fn new(timing: Rng, slowest: u64, scl: u8, sda: u8) -> Pen {
        Pen { levels: vec![scl | sda << 1], timing, slowest }
    }

    fn scl(&self) -> u8 {
        self.levels.last().copied().unwrap_or(3) & 1
    }

    fn sda(&self) -> u8 {
        self.levels.last().copied().unwrap_or(3) >> 1
    }

    /// Draws these levels for a while. Gives the first sample that has them.
    pub fn level(&mut self, scl: u8, sda: u8) -> usize {
        let sample = self.levels.len();
        let samples = self.timing.between(1, self.slowest);
        (0..samples).for_each(|_| self.levels.push(scl | sda << 1));
        sample
    }

    /// Leaves both lines as they are for so many samples.
    pub fn rest(&mut self, samples: usize) {
        let (scl, sda) = (self.scl(), self.sda());
        self.levels.extend(vec![scl | sda << 1; samples]);
    }

    /// One clock with this bit. SDA changes as SCL falls, while it is low, or as it rises. Gives the
    /// sample of the rise.
    pub fn clock(&mut self, bit: u8) -> usize {
        let old = self.sda();
        let way = if self.slowest == 1 { 0 } else { self.timing.below(3) };
        match way {
            0 => {
                self.level(0, bit);
            }
            1 => {
                self.level(0, old);
                self.level(0, bit);
            }
            _ => {
                self.level(0, old);
            }
        }
        self.level(1, bit)
    }

    /// Eight clocks with the byte's bits and the ninth with this one. Gives the sample of the ninth.
    pub fn byte(&mut self, value: u8, ninth: u8) -> usize {
        for place in (0..8).rev() {
            self.clock((value >> place) & 1);
        }
        self.clock(ninth)
    }

    /// START after so many clocks. If SDA is low or SCL is, there is no START without a clock.
    pub fn start(&mut self, clocks: usize) -> usize {
        self.clocks_to(clocks, 1);
        self.level(1, 0)
    }

    /// STOP after so many clocks. If SDA is high or SCL is low, there is no STOP without a clock.
    pub fn stop(&mut self, clocks: usize) -> usize {
        self.clocks_to(clocks, 0);
        self.level(1, 1)
    }

    /// Draws so many clocks, the last of them with this bit, so that SCL is high and SDA has it.
    fn clocks_to(&mut self, clocks: usize, bit: u8) {
        let there = self.scl() == 1 && self.sda() == bit;
        let clocks = if there { clocks } else { clocks.max(1) };
        for place in 1..=clocks {
            let other = self.timing.below(2) as u8;
            self.clock(if place == clocks { bit } else { other });
        }
    }
}

/// The samples of a capture out of both buses. The shorter one stays as it ended.
pub fn samples_of(buses: [&[u8]; 2]) -> Vec<u8> {
    let length = buses[0].len().max(buses[1].len());
    let at = |bus: usize, place: usize| {
        let levels = buses[bus];
        levels.get(place).or(levels.last()).copied().unwrap_or(3)
    };
    (0..length).map(|place| at(0, place) | at(1, place) << 2).collect()
}
