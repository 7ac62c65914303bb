//! The last samples, kept for a READ that differs: was its byte overtaken?
//!
//! A chip has to show the first bit of a byte when SCL falls before it, and cannot know what comes until
//! the ninth clock, where the model answers. So a byte that the model would have answered at some sample of
//! that byte is no fault of the chip.

use std::collections::VecDeque;

use gunwaleish::{Check, Master, Register, Watch};

/// A part is added to until it has so many samples; and so many parts are kept.
const FULL: usize = 1 << 10;
const MOST_PARTS: usize = 256;
/// The clocks of a byte.
const CLOCKS: usize = 9;

/// Neighbouring samples, and the listener as it was before the first of them.
struct Part {
    watch: Watch,
    first: u64,
    samples: Vec<u8>,
}

/// The last samples of a stream, a bounded number.
#[derive(Default)]
pub struct Kept {
    parts: VecDeque<Part>,
}

impl Kept {
    /// The samples that a listener is to be given next, of which the first has this number.
    pub fn prepare(&mut self, watch: &Watch, next: u64) {
        if self.parts.back().is_some_and(|part| part.samples.len() < FULL) {
            return;
        }
        // The oldest one's room is used again.
        let old = (self.parts.len() >= MOST_PARTS).then(|| self.parts.pop_front()).flatten();
        let mut samples = old.map(|part| part.samples).unwrap_or_default();
        samples.clear();
        self.parts.push_back(Part { watch: watch.clone(), first: next, samples });
    }

    /// The samples that it took.
    pub fn add(&mut self, samples: &[u8]) {
        if let Some(part) = self.parts.back_mut() {
            part.samples.extend_from_slice(samples);
        }
    }

    /// Nothing before this is of use any more: the listener has another device.
    pub fn clear(&mut self) {
        self.parts.clear();
    }

    /// A sample by its number, if it is kept.
    pub fn sample(&self, number: u64) -> Option<u8> {
        let part = self.parts.iter().rev().find(|part| part.first <= number)?;
        part.samples.get(usize::try_from(number - part.first).ok()?).copied()
    }

    fn first(&self) -> u64 {
        self.parts.front().map_or(0, |part| part.first)
    }

    /// The sample in which SCL fell before the first bit of the byte whose ninth clock is in this one, or
    /// the first one that is kept.
    fn fall_before(&self, ninth: u64, master: Master) -> u64 {
        let scl = |number: u64| {
            self.sample(number).is_none_or(|sample| sample >> (2 * master.number()) & 1 == 1)
        };
        let mut clocks = 0;
        for number in (self.first() + 1..=ninth).rev() {
            let (was, is) = (scl(number - 1), scl(number));
            clocks += usize::from(!was && is);
            if clocks >= CLOCKS && was && !is {
                return number;
            }
        }
        self.first()
    }

    /// True if the model would have answered the byte that was heard at some sample of that byte.
    pub fn is_overtaken(&self, check: &Check) -> bool {
        let fall = self.fall_before(check.sample, check.master);
        let Some(part) = self.parts.iter().rposition(|part| part.first <= fall) else {
            return false;
        };
        let mut watch = self.parts[part].watch.clone();
        let samples: Vec<u8> =
            self.parts.range(part..).flat_map(|part| part.samples.iter().copied()).collect();
        let place = |number: u64| (number - self.parts[part].first) as usize;
        let mut before = &samples[..place(fall)];
        while !before.is_empty() {
            before = &before[watch.listen(before).max(1)..];
        }
        for sample in &samples[place(fall)..place(check.sample)] {
            if answer(&watch, check.master) == Some(check.heard) {
                return true;
            }
            watch.listen(std::slice::from_ref(sample));
        }
        answer(&watch, check.master) == Some(check.heard)
    }
}

/// What a master would read now.
fn answer(watch: &Watch, master: Master) -> Option<u8> {
    let pointer = watch.image()[POINTERS[master as usize]];
    Register::of(pointer).map(|register| watch.device().read(master, register))
}

/// The pointers' places in an image (`docs/IMAGE.md`).
const POINTERS: [usize; 2] = [33, 36];
