//! Whose claim it is.
//!
//! An answer shows that there is a claim, and its ground, but before the grant not whose it is. That
//! follows from who asks; where both ask in one PAIR, from the priorities and the last granted.

use gunwaleish::{Answer, Ground, Master};

use super::Written;

/// The claimant after an event, an owner among them. `before` is the one before the event, and `last`
/// the master granted last before it.
pub fn claimant(
    answer: Answer,
    written: &[Written; 2],
    before: Option<Master>,
    last: Option<Master>,
) -> Option<Master> {
    let ground = answer.ground?;
    let asks = |m: &Master| written[*m as usize].requests;
    let has_priority = |m: &Master| written[*m as usize].priority;
    // A claimant stays one as long as it asks.
    answer.owner.or(before.filter(asks)).or_else(|| match ground {
        Ground::Sole => Master::BOTH.into_iter().find(asks),
        Ground::Priority => Master::BOTH.into_iter().find(has_priority),
        Ground::LastGranted => Some(match last {
            Some(master) => master.partner(),
            None if written.iter().all(|own| own.priority) => Master::One,
            None => Master::Zero,
        }),
    })
}
