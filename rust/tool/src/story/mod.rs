//! A run, followed event by event: what can be seen of the device, and what changed.
//!
//! Owner, switch, the ground of a claim, outputs and lines stand in the library's answers. Four
//! things do not: who waits, which `written` derives from what was written and answered; who claims
//! before its grant, which `claim` derives from that; whether a full mailbox drops a byte, which
//! `mail` derives as `written` does; and whether the bus is hung, which `hung` asks the library.

mod between;
mod changes;
mod claim;
mod hung;
mod mail;
mod part;
mod step;
mod written;

pub use changes::{Change, GrantEnd, InitialisationEnd};
pub use part::{idle_limit, write_pointer_rolls};
pub use step::{Scene, Step};
pub use written::Written;

use gunwaleish::{Answer, Event, Master, Part, Pins, Refusal, Run};

use step::POWER_UP;

/// A whole run.
#[derive(Clone, Debug, PartialEq, Eq)]
pub struct Story {
    pub address: u8,
    pub pins: Pins,
    pub part: Part,
    pub steps: Vec<Step>,
}

impl Story {
    pub fn ticks(&self) -> usize {
        self.steps.last().map_or(0, |step| step.tick)
    }

    /// The ticks that have passed at the step of this place, or at the end.
    pub fn tick_at(&self, place: usize) -> usize {
        self.steps.get(place).map_or(self.ticks(), |step| step.tick)
    }
}

/// Runs a trace and follows it.
pub fn follow(trace: &[u8]) -> Result<Story, Refusal> {
    gunwaleish::run(trace).map(follow_run)
}

/// The pointers of both masters before each event of a run: the registers that its bytes are for. `None`
/// of an event that is refused.
pub fn pointers(run: &Run) -> Vec<Option<[u8; 2]>> {
    let mut written = [Written::new(run.part); 2];
    let mut owner = None;
    let step = |(&event, &answer): (&Event, &Answer)| {
        let before = written.each_ref().map(|own| own.pointer);
        written::take(&mut written, event, answer, owner);
        owner = answer.owner;
        (!answer.outcome.is_refused()).then_some(before)
    };
    run.events.iter().zip(&run.answers).map(step).collect()
}

/// Follows a run.
pub fn follow_run(run: Run) -> Story {
    let hung = hung::flags(&run);
    let mut written = [Written::new(run.part); 2];
    let mut boxes = mail::Boxes::default();
    let mut scene = POWER_UP;
    let mut last = None;
    let mut tick = 0;
    let mut steps = Vec::with_capacity(run.events.len());
    for (place, (&event, &answer)) in run.events.iter().zip(&run.answers).enumerate() {
        tick += usize::from(event == Event::Tick);
        let before = written;
        written::take(&mut written, event, answer, scene.owner);
        let claimant = claim::claimant(answer, &written, scene.claimant, last);
        let now = scene_after(answer, &written, claimant, hung[place]);
        let mut step = Step {
            number: place + 1,
            tick,
            event,
            answer,
            before,
            after: written,
            dropped: boxes.take(event, answer, &before),
            scene: now,
            changes: vec![],
        };
        step.changes = between::between(&scene, &step);
        last = if step.is_reset() { None } else { now.owner.or(last) };
        steps.push(step);
        scene = now;
    }
    Story { address: run.address, pins: run.pins, part: run.part, steps }
}

fn scene_after(
    answer: Answer,
    written: &[Written; 2],
    claimant: Option<Master>,
    hung: bool,
) -> Scene {
    let waits = |m: Master| written[m as usize].requests && answer.owner != Some(m);
    Scene {
        owner: answer.owner,
        claimant,
        ground: answer.ground,
        connected: answer.connected,
        initialising: answer.initialising,
        asserted: [answer.int0, answer.int1],
        scl: answer.scl,
        sda: answer.sda,
        waits: Master::BOTH.map(waits),
        hung,
    }
}
