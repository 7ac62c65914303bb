//! Plays two scripts, the world downstream and a chip, sample by sample. What is true of the capture
//! is written down as it is made: nothing is read back from the samples.

use super::bus::{answer_of, Fault, ReadByte, Setting, Sign, LINES};
use super::chip::{Chip, Flaw};
use super::moves::{Gate, Manner, Move, Sda, Wait};
use super::plan::plan;
use super::played::Played;
use super::script::{Script, World};
use crate::event::make::*;
use crate::rng::Rng;
use crate::Device;

/// All that a capture is made of.
#[derive(Clone, Debug)]
pub struct Scene {
    pub setting: Setting,
    pub flaw: Flaw,
    pub scripts: [Script; 2],
    pub world: World,
    /// Each bus in the first sample: SCL in bit 0 and SDA in bit 1.
    pub first: [u8; 2],
    pub manner: Manner,
    pub seed: u64,
    /// The samples after the last move.
    pub tail: u64,
    /// So many samples after each TICK the chip's own millisecond ends. 0 is where the TICK is.
    pub phase: u64,
}

/// One bus: its levels, for how long they last, and what comes then.
struct Bus {
    moves: Vec<Move>,
    next: usize,
    left: u64,
    waited: u64,
    scl: u8,
    sda: u8,
    /// The byte that the chip shows here, and what a right device answered since it began to.
    shown: u8,
    answers: Option<Vec<u8>>,
}

struct Stage {
    scene: Scene,
    rng: Rng,
    at: u64,
    buses: [Bus; 2],
    changes: usize,
    lines: u8,
    chip: Chip,
    right: Device,
    /// The bus that reads a byte which nothing may come into.
    lock: Option<usize>,
    made: Played,
}

/// The capture of a scene. Where reads are kept apart, a byte has to fit between two TICKs.
pub fn play(scene: &Scene) -> Played {
    let mut stage = Stage::new(scene.clone());
    stage.sample();
    while stage.buses.iter().any(|bus| bus.next < bus.moves.len() || bus.left > 0) {
        stage.sample();
    }
    (0..scene.tail).for_each(|_| stage.sample());
    stage.made
}

impl Stage {
    fn new(scene: Scene) -> Stage {
        let mut rng = Rng::new(scene.seed);
        let mut bus = |master: usize| {
            let (first, script) = (scene.first[master], &scene.scripts[master]);
            let moves = plan(scene.setting, master, scene.manner, &mut rng, first, script);
            let (scl, sda) = (first & 1, first >> 1);
            Bus { moves, next: 0, left: 0, waited: 0, scl, sda, shown: 0, answers: None }
        };
        let buses = [bus(0), bus(1)];
        let made = Played {
            setting: scene.setting,
            flaw: scene.flaw,
            phase: scene.phase,
            samples: vec![],
            events: vec![],
            reads: vec![],
            faults: vec![],
            signs: [vec![], vec![]],
        };
        Stage {
            rng,
            at: 0,
            buses,
            changes: 0,
            lines: LINES,
            chip: Chip::new(scene.setting.kind, scene.flaw),
            right: Device::power_up_of(scene.setting.kind),
            lock: None,
            made,
            scene,
        }
    }

    fn is_tick(&self) -> bool {
        self.at > 0 && self.at.is_multiple_of(self.scene.setting.samples_per_tick)
    }

    /// Makes one sample: first the levels, by what the chip was before it, then what they mean.
    fn sample(&mut self) {
        let down = self.downstream();
        let moved = down != std::mem::replace(&mut self.lines, down);
        // The first sample is only a starting level.
        let begun = if self.at == 0 { [None, None] } else { self.begin_moves(moved) };
        let levels = |bus: &Bus| bus.scl | bus.sda << 1;
        let any = if self.scene.manner.bit_7 { 0x80 & self.rng.byte() } else { 0 };
        let sample = levels(&self.buses[0]) | levels(&self.buses[1]) << 2 | down | any;
        self.made.samples.push(sample);
        if moved {
            self.step(lines((down >> 4) & 1, (down >> 5) & 1, (down >> 6) & 1));
        }
        self.upstream([begun[0].as_ref(), begun[1].as_ref()]);
        if self.is_tick() {
            self.step(tick());
        }
        self.late_tick();
        self.at += 1;
    }

    /// The chip's own millisecond ends, where that is not at the TICK.
    fn late_tick(&mut self) {
        let (phase, of_tick) = (self.scene.phase, self.scene.setting.samples_per_tick);
        if phase > 0 && self.at > of_tick && self.at % of_tick == phase {
            self.chip.step(tick());
        }
    }

    /// The downstream lines: the world's, and low where the chip pulls. Under a lock they stay.
    fn downstream(&mut self) -> u8 {
        let next = self.scene.world.get(self.changes);
        if next.is_some_and(|(when, _)| *when <= self.at) && self.lock.is_none() {
            self.changes += 1;
        }
        let world = self.changes.checked_sub(1).map_or(LINES, |last| self.scene.world[last].1);
        if self.scene.manner.echo {
            world & !self.chip.pulls()
        } else {
            world
        }
    }

    /// Each bus whose level has lasted begins its next move, if nothing is in the way.
    fn begin_moves(&mut self, moved: bool) -> [Option<Move>; 2] {
        let mut begun = [None, None];
        let together = [0, 1].map(|bus| self.waits_for_partner(bus)) == [true, true];
        let first = self.rng.below(2) as usize;
        for bus in [first, 1 - first] {
            if self.buses[bus].left > 0 {
                self.buses[bus].left -= 1;
                continue;
            }
            let partner: &Option<Move> = &begun[1 - bus];
            let alone = !moved && partner.as_ref().is_none_or(|other| other.gives.is_none());
            if self.buses[bus].next < self.buses[bus].moves.len() {
                match self.may_begin(bus, together, alone) {
                    true => begun[bus] = Some(self.begin(bus)),
                    false => self.buses[bus].waited += 1,
                }
            }
        }
        begun
    }

    /// This bus has come to an event that waits for the partner's.
    fn waits_for_partner(&self, bus: usize) -> bool {
        let bus = &self.buses[bus];
        let next = bus.moves.get(bus.next);
        bus.left == 0 && next.is_some_and(|next| matches!(next.wait, Wait::Partner(_)))
    }

    fn may_begin(&self, bus: usize, together: bool, alone: bool) -> bool {
        let next = &self.buses[bus].moves[self.buses[bus].next];
        let waited = match next.wait {
            Wait::No => true,
            Wait::Partner(patience) => together || self.buses[bus].waited >= patience,
            Wait::Tick => self.is_tick(),
        };
        match next.gate {
            Gate::Open => true,
            Gate::After(sample) => self.at >= sample,
            Gate::Event => waited && self.lock.is_none(),
            Gate::Answer => waited,
            Gate::Latch if !self.scene.manner.apart => true,
            Gate::Latch => self.lock.is_none() && alone && self.fits_before_tick(bus),
        }
    }

    /// A byte that is read from this sample on has its ninth clock before the next TICK or in its
    /// sample, where the TICK comes after it.
    fn fits_before_tick(&self, bus: usize) -> bool {
        let rest = &self.buses[bus].moves[self.buses[bus].next..];
        let shown = rest.iter().take_while(|step| step.gate != Gate::Answer);
        let needed: u64 = shown.map(|step| step.lasts).sum();
        let of_tick = self.scene.setting.samples_per_tick;
        assert!(needed < of_tick, "a byte of {needed} samples does not fit a tick of {of_tick}");
        !self.is_tick() && self.at + needed <= (self.at / of_tick + 1) * of_tick
    }

    fn begin(&mut self, place: usize) -> Move {
        let shows = self.chip.shows(place);
        let answer = answer_of(&self.right, place);
        let bus = &mut self.buses[place];
        let next = bus.moves[bus.next].clone();
        (bus.next, bus.left, bus.waited) = (bus.next + 1, next.lasts - 1, 0);
        if next.gate == Gate::Latch {
            (bus.shown, bus.answers) = (shows, Some(vec![answer]));
            self.lock = self.scene.manner.apart.then_some(place);
        }
        bus.scl = next.scl;
        bus.sda = match next.sda {
            Sda::Keep => bus.sda,
            Sda::Level(level) => level,
            Sda::Chip(bit) => (bus.shown >> bit) & 1,
            Sda::Ack(event) => u8::from(!self.chip.acknowledges(event)),
        };
        next
    }

    /// What the moves that began in this sample mean. "Two data writes in one sample become PAIR;
    /// otherwise master 0 comes first" (#104).
    fn upstream(&mut self, begun: [Option<&Move>; 2]) {
        match begun.map(|begun| begun.and_then(|begun| begun.gives)) {
            [Some([1, _, v0, _]), Some([1, _, v1, _])] => self.step(pair(v0, v1)),
            both => both.into_iter().flatten().for_each(|event| self.step(event)),
        }
        for (bus, begun) in begun.iter().enumerate() {
            let Some(begun) = begun else { continue };
            let sign = match begun.sign {
                Some(Sign::Byte(_)) if begun.gate == Gate::Answer => {
                    self.lock = None;
                    Some(Sign::Byte(self.buses[bus].shown))
                }
                sign => sign,
            };
            self.made.signs[bus].extend(sign.map(|sign| (self.at, sign)));
            if begun.fault {
                self.made.faults.push(Fault { sample: self.at, bus });
            }
        }
    }

    fn step(&mut self, event: [u8; 4]) {
        let expected = self.right.step(event)[1];
        if event != tick() || self.scene.phase == 0 {
            self.chip.step(event);
        }
        self.made.events.push((self.at, event));
        if event[0] == 2 {
            let master = usize::from(event[1]);
            let heard = self.buses[master].shown;
            let answers = self.buses[master].answers.take().unwrap_or_default();
            let overtaken = heard != expected && answers.contains(&heard);
            let sample = self.at;
            self.made.reads.push(ReadByte { sample, master, heard, expected, overtaken });
        }
        for (master, bus) in self.buses.iter_mut().enumerate() {
            if let Some(answers) = &mut bus.answers {
                answers.push(answer_of(&self.right, master));
            }
        }
    }
}
