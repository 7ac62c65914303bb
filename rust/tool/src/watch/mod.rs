//! A bus that is watched: the model beside the chip.
//!
//! The library's listener takes the samples; here stands what a person wants to know of it while it
//! listens. `kept` tells whether a READ that differs was overtaken, `waits` counts how long each controller
//! waits, `resync` takes what a READ shows, `finding` has what is found, `words` and `rows` say it, `status` is the line that
//! goes on, `summary` stands at the end, and `following` reads a file that grows.

pub mod finding;
pub mod following;
pub mod kept;
pub mod resync;
pub mod rows;
pub mod status;
pub mod summary;
pub mod waits;
pub mod words;

use gunwaleish::{Check, Master, Watch, WatchSettings};

use crate::device::Device;
use crate::failure::Failure;
use crate::samples::rate::samples_of_tick;
use crate::samples::{Head, Piece, Taker};
use kept::Kept;
use waits::Waits;

pub use finding::{Finding, Found};

/// How a bus is to be watched.
#[derive(Clone, Copy, Debug, PartialEq, Eq)]
pub struct Wanted {
    pub device: Device,
    /// Bits 4, 5 and 6 are wired. Of a file with names they are, if it has one of theirs.
    pub below: bool,
    /// After a difference the model takes what the READ shows.
    pub resync: bool,
    /// The waits that order sheets promise.
    pub promised: [Option<u64>; 2],
}

/// A bus as far as it was heard.
pub struct State {
    pub watch: Watch,
    pub rate: u64,
    /// Samples of a TICK.
    every: u64,
    pub below: bool,
    /// The number of the next sample.
    pub next: u64,
    pub waits: Waits,
    pub differences: u64,
    pub overtaken: u64,
    /// The first sample that is told as a difference.
    pub first: Option<Check>,
    pub taken: u64,
    /// The first TICK's sample after which an initialisation ran.
    pub initialising: Option<u64>,
}

/// Who is told.
pub trait Told {
    fn found(&mut self, found: &Found) -> Result<(), Failure>;
    /// Some more samples were heard.
    fn goes_on(&mut self, state: &State) -> Result<(), Failure>;
}

/// Listens to the samples of a file.
pub struct Watching<'a> {
    name: String,
    wanted: Wanted,
    pub state: Option<State>,
    kept: Kept,
    told: &'a mut dyn Told,
    /// One level, as often as it is given at once.
    level: Vec<u8>,
}

/// The switch in an image, and from which number on it says that an initialisation runs (`docs/IMAGE.md`).
const SWITCH: usize = 29;
const INITIALISING: u8 = 3;

/// So many samples are given to the listener at once, at the most.
const AT_ONCE: usize = 1 << 16;

impl<'a> Watching<'a> {
    /// Of a file that goes by this name in messages.
    pub fn new(name: &str, wanted: Wanted, told: &'a mut dyn Told) -> Watching<'a> {
        let (name, kept) = (name.to_string(), Kept::default());
        Watching { name, wanted, state: None, kept, told, level: vec![] }
    }

    /// The samples that come next, cut where a TICK is.
    fn hear(&mut self, samples: &[u8]) -> Result<(), Failure> {
        let Watching { wanted, state: Some(state), kept, told, .. } = self else {
            return Ok(());
        };
        let mut rest = samples;
        while !rest.is_empty() {
            let to_tick = state.to_tick();
            let length = to_tick.min(rest.len() as u64).min(AT_ONCE as u64) as usize;
            let (piece, later) = rest.split_at(length);
            state.listen(piece, kept, wanted, *told)?;
            if length as u64 == to_tick {
                state.after_tick(*told)?;
            }
            rest = later;
        }
        told.goes_on(state)
    }
}

impl Taker for Watching<'_> {
    fn begin(&mut self, head: &Head) -> Result<(), Failure> {
        let name = &self.name;
        let wrong = |what: String| Failure::Wrong(format!("{name}: {what}"));
        let Some(rate) = head.rate else {
            return Err(wrong(format!(
                "{} does not say how many samples a second there are, and a TICK is a millisecond: \
                 --samplerate 1M says it",
                head.form
            )));
        };
        let every = samples_of_tick(rate).map_err(|uneven| wrong(uneven.to_string()))?;
        let Device { address, part, .. } = self.wanted.device;
        let below = self.wanted.below || head.below;
        let settings = WatchSettings { part, address, every, below };
        let watch = Watch::fresh(settings)
            .map_err(|refusal| Failure::Refused(format!("{name}: {refusal}")))?;
        let waits = Waits { promised: self.wanted.promised, ..Waits::default() };
        self.state = Some(State {
            watch,
            rate,
            every: every.into(),
            below,
            next: 0,
            waits,
            differences: 0,
            overtaken: 0,
            first: None,
            taken: 0,
            initialising: None,
        });
        Ok(())
    }

    fn take(&mut self, piece: Piece) -> Result<(), Failure> {
        match piece {
            Piece::Samples(samples) => self.hear(samples),
            Piece::Level(level, count) => {
                let mut buffer = std::mem::take(&mut self.level);
                let mut left = count;
                while left > 0 {
                    let length = left.min(AT_ONCE as u64);
                    buffer.clear();
                    buffer.resize(length as usize, level);
                    self.hear(&buffer)?;
                    left -= length;
                }
                self.level = buffer;
                Ok(())
            }
        }
    }
}

impl State {
    /// How many samples there are up to the next TICK, the one in which it stands included.
    fn to_tick(&self) -> u64 {
        let tick = self.next.max(1).div_ceil(self.every).saturating_mul(self.every);
        (tick - self.next).saturating_add(1)
    }

    fn listen(
        &mut self,
        samples: &[u8],
        kept: &mut Kept,
        wanted: &Wanted,
        told: &mut dyn Told,
    ) -> Result<(), Failure> {
        let mut rest = samples;
        while !rest.is_empty() {
            kept.prepare(&self.watch, self.next);
            let (differences, faults) = (self.watch.differences(), self.watch.faults());
            // At least one, or a library that is not the proved one would keep it here for ever.
            let taken = self.watch.listen(rest).clamp(1, rest.len());
            kept.add(&rest[..taken]);
            self.next += taken as u64;
            rest = &rest[taken..];
            if self.watch.faults() != faults {
                self.fault(kept, told)?;
            }
            if self.watch.differences() != differences {
                for (check, overtaken) in self.differing(kept) {
                    self.held(&check, overtaken, kept, wanted, told)?;
                }
            }
        }
        Ok(())
    }

    fn found(&self, finding: Finding) -> Found {
        Found { sample: self.next - 1, rate: self.rate, finding }
    }

    /// A START or STOP stood inside a byte in the last sample.
    fn fault(&mut self, kept: &Kept, told: &mut dyn Told) -> Result<(), Failure> {
        let last = self.next - 1;
        let (was, is) = (kept.sample(last.saturating_sub(1)), kept.sample(last));
        let condition = |master: Master| {
            let lines = |sample: u8| sample >> (2 * master.number()) & 3;
            let (was, is) = (lines(was?), lines(is?));
            (was & is & 1 == 1 && was != is).then_some((master, is & 2 == 0))
        };
        let buses = Master::BOTH.into_iter().filter_map(condition).collect();
        told.found(&self.found(Finding::Fault { buses }))
    }

    /// The READs of the last sample that differ, and whether each was overtaken.
    fn differing(&self, kept: &Kept) -> Vec<(Check, bool)> {
        let last = self.next - 1;
        let reads = Master::BOTH.into_iter().filter_map(|master| self.watch.last_read(master));
        let here = reads.filter(|check| check.sample == last && check.differs());
        here.map(|check| (check, kept.is_overtaken(&check))).collect()
    }

    /// A READ that differs.
    fn held(
        &mut self,
        check: &Check,
        overtaken: bool,
        kept: &mut Kept,
        wanted: &Wanted,
        told: &mut dyn Told,
    ) -> Result<(), Failure> {
        if overtaken {
            self.overtaken += 1;
            return told.found(&self.found(Finding::Overtaken(*check)));
        }
        self.differences += 1;
        self.first = self.first.or(Some(*check));
        told.found(&self.found(Finding::Difference(*check)))?;
        match wanted.resync {
            true => self.resync(check, kept, told),
            false => Ok(()),
        }
    }

    fn resync(
        &mut self,
        check: &Check,
        kept: &mut Kept,
        told: &mut dyn Told,
    ) -> Result<(), Failure> {
        let Some(taken) = resync::resync(&self.watch.device(), check, self.below) else {
            return Ok(());
        };
        let left = words::bits(check.register, check.heard, taken.left);
        if !taken.things.is_empty() {
            self.watch.go_on_with(&taken.device);
            kept.clear();
            self.taken += 1;
        }
        let (register, things) = (check.register, taken.things);
        told.found(&self.found(Finding::Taken { register, things, left }))
    }

    /// A TICK stood in the last sample.
    fn after_tick(&mut self, told: &mut dyn Told) -> Result<(), Failure> {
        let tick = (self.next - 1) / self.every;
        if self.initialising.is_none() && self.watch.image()[SWITCH] >= INITIALISING {
            self.initialising = Some(self.next - 1);
        }
        let above = self.waits.tick(tick, &self.watch.device());
        for master in Master::BOTH.into_iter().filter(|master| above[*master as usize]) {
            let promised = self.waits.promised[master as usize].unwrap_or_default();
            told.found(&self.found(Finding::LongWait { master, promised }))?;
        }
        Ok(())
    }

    /// True if something was found that is not as it should be.
    pub fn is_wrong(&self) -> bool {
        self.differences > 0 || self.waits.each.iter().any(|waited| waited.above > 0)
    }
}
