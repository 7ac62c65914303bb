//! A shelf with several arbiters, run by one script. Document 02, #110.
//!
//! `file` reads the shelf file, and `script::named` the script. The library's shelf answers each event
//! and says which reach nobody. What happens at one place is the run of the events that reach it, on a
//! device by itself: so it is proved of the library's shelf. So `story` follows that run, `words` tells
//! it, and `rows` has it for other programs.

pub mod file;
pub mod rows;
pub mod words;

use std::collections::BTreeMap;

use gunwaleish::{run, write_trace, Answer, Outcome, Part, Pins, Refusal, Shelf};

use crate::script::named::{Name, Named};
use crate::story::{follow_run, Story};

/// A place of the row: its address, its part, and its line in the shelf file.
#[derive(Clone, Copy, Debug, PartialEq, Eq)]
pub struct Slot {
    pub address: u8,
    pub part: Part,
    pub line: usize,
}

/// An event with its answer, which is that of the device that it names, or of place 0; or refused by the
/// shelf, since its address or place is not in the row.
pub type Answered = (Named, Result<Answer, Refusal>);

/// A script that was run over a shelf.
#[derive(Clone, Debug, PartialEq, Eq)]
pub struct Shelved {
    pub slots: Vec<Slot>,
    pub answered: Vec<Answered>,
    /// What happens at each place. The events have their numbers in the script.
    pub stories: Vec<Story>,
    /// The device at each place after the last event, as the shelf shows it.
    pub shown: Vec<Answer>,
}

impl Shelved {
    /// The events that the shelf refuses, each with its number in the script.
    pub fn refused(&self) -> impl Iterator<Item = (usize, &Named)> {
        let refused = self.answered.iter().zip(1..).filter(|((_, answer), _)| answer.is_err());
        refused.map(|((named, _), number)| (number, named))
    }

    /// The events that devices refuse, each with its number in the script and the places where it is
    /// refused. One that reaches all may be refused at several.
    pub fn refused_by_devices(&self) -> impl Iterator<Item = (usize, &Named, Vec<At>)> {
        let mut refused: BTreeMap<usize, Vec<At>> = BTreeMap::new();
        for (place, story) in self.stories.iter().enumerate() {
            for step in story.steps.iter().filter(|step| step.answer.outcome.is_refused()) {
                refused.entry(step.number).or_default().push((place, step.answer.outcome));
            }
        }
        refused.into_iter().filter_map(|(number, places)| {
            let (named, _) = self.answered.get(number - 1)?;
            Some((number, named, places))
        })
    }
}

/// A place where an event is refused, and with what.
pub type At = (usize, Outcome);

/// Runs a script over a shelf of fresh devices.
pub fn run_over(slots: Vec<Slot>, events: &[Named]) -> Result<Shelved, Refusal> {
    let row: Vec<(u8, Part)> = slots.iter().map(|slot| (slot.address, slot.part)).collect();
    let mut shelf = Shelf::new(&row)?;
    let step = |named: &Named| (*named, shelf.step(named.name.number(), named.event));
    let answered: Vec<Answered> = events.iter().map(step).collect();
    let stories = (0..slots.len()).map(|place| story_at(place, &slots, &answered));
    let stories = stories.collect::<Result<_, _>>()?;
    let shown = (0..slots.len()).map(|place| shelf.show(place as u8)).collect::<Result<_, _>>()?;
    Ok(Shelved { slots, answered, stories, shown })
}

/// What happens at a place.
fn story_at(place: usize, slots: &[Slot], answered: &[Answered]) -> Result<Story, Refusal> {
    let slot = slots[place];
    let here = |name: Name| match name {
        Name::Address(address) => address == slot.address,
        Name::Place(number) => usize::from(number) == place,
        Name::All => true,
    };
    let numbered = answered.iter().map(|(named, _)| named).zip(1..);
    let reached: Vec<_> = numbered.filter(|(named, _)| here(named.name)).collect();
    let events: Vec<_> = reached.iter().map(|(named, _)| named.event).collect();
    // The pins bear on no answer, and an address of a shelf need not be one that pins have.
    let run = run(&write_trace(Pins::default(), slot.part, &events)?)?;
    let mut story = follow_run(run);
    for (step, (_, number)) in story.steps.iter_mut().zip(reached) {
        step.number = number;
    }
    Ok(story)
}
