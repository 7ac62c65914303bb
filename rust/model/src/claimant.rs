//! The claimant of the bus, and the ground of its claim (document 02, #107). `claim` has the rule by which it is chosen.

/// Why a claim was won. "1 sole requester, 2 priority, 3 last granted."
#[derive(Clone, Copy, Debug, PartialEq, Eq)]
pub enum Ground {
    SoleRequester,
    Priority,
    LastGranted,
}

impl Ground {
    pub fn number(self) -> u8 {
        match self {
            Ground::SoleRequester => 1,
            Ground::Priority => 2,
            Ground::LastGranted => 3,
        }
    }
}

/// The claimant, and the ground on which it was chosen. Nothing that comes later moves the ground.
#[derive(Clone, Copy, Debug, PartialEq, Eq)]
pub struct Claim {
    pub master: usize,
    pub ground: Ground,
}
