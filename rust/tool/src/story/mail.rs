//! Which written bytes a full mailbox drops.
//!
//! Such a byte is acknowledged, and no answer shows that it is dropped. It follows from what came
//! before: a byte at register 7 fills the partner's box, a READ of register 7 empties one's own,
//! and a reset empties both. A refused event changes nothing.

use gunwaleish::{Answer, Event, Master};

use super::written::{is_reset, Written};

const MAILBOX_LOW: u8 = 6;
const MAILBOX_HIGH: u8 = 7;

/// Whether each master's own box is full.
#[derive(Clone, Copy, Debug, Default, PartialEq, Eq)]
pub struct Boxes {
    full: [bool; 2],
}

impl Boxes {
    /// Follows one event. `before` has the pointers before it. Tells for each master whether the
    /// byte that it wrote was dropped.
    pub fn take(&mut self, event: Event, answer: Answer, before: &[Written; 2]) -> [bool; 2] {
        if answer.outcome.is_refused() {
            return [false; 2];
        }
        let writers: &[Master] = match event {
            Event::Write { master: Master::Zero, .. } => &[Master::Zero],
            Event::Write { master: Master::One, .. } => &[Master::One],
            Event::Pair { .. } => &Master::BOTH,
            _ => &[],
        };
        let mut dropped = [false; 2];
        // Each byte of a PAIR goes to the other's box, so the order does not matter.
        for &writer in writers {
            let pointer = before[writer as usize].pointer;
            let full = &mut self.full[writer.partner() as usize];
            dropped[writer as usize] = *full && matches!(pointer, MAILBOX_LOW | MAILBOX_HIGH);
            *full |= pointer == MAILBOX_HIGH;
        }
        match event {
            Event::Read { master } if before[master as usize].pointer == MAILBOX_HIGH => {
                self.full[master as usize] = false;
            }
            _ if is_reset(event, answer) => *self = Boxes::default(),
            _ => {}
        }
        dropped
    }
}
