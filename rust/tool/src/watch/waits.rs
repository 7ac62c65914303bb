//! How long each controller waits: as the bus share counts it (#112), after each TICK.

use gunwaleish::{Device, Master, Register};

const LOCK_REQ: u8 = 0x01;
const LOCK_GRANT: u8 = 0x02;

/// The waits of both controllers, in ticks.
#[derive(Clone, Copy, Debug, Default, PartialEq, Eq)]
pub struct Waits {
    /// What the order sheets promise, if they promise anything behind a live holder.
    pub promised: [Option<u64>; 2],
    pub each: [Waited; 2],
}

/// Of one controller.
#[derive(Clone, Copy, Debug, Default, PartialEq, Eq)]
pub struct Waited {
    /// The wait that goes on.
    pub now: u64,
    /// How many waits there were, and all their ticks.
    pub count: u64,
    pub ticks: u64,
    /// The longest, and the number of the TICK after which it began to be counted.
    pub longest: u64,
    pub longest_from: u64,
    /// How many were above what is promised.
    pub above: u64,
}

impl Waits {
    /// After the TICK of this number. Gives the controllers whose wait is above the promise from here on.
    pub fn tick(&mut self, tick: u64, device: &Device) -> [bool; 2] {
        Master::BOTH.map(|master| {
            let waited = &mut self.each[master as usize];
            let promised = self.promised[master as usize];
            waited.tick(tick, waits(device, master));
            let above = promised.is_some_and(|most| waited.now == most + 1);
            waited.above += u64::from(above);
            above
        })
    }
}

impl Waited {
    fn tick(&mut self, tick: u64, waits: bool) {
        if !waits {
            self.now = 0;
            return;
        }
        self.count += u64::from(self.now == 0);
        self.now += 1;
        self.ticks += 1;
        if self.now > self.longest {
            (self.longest, self.longest_from) = (self.now, tick + 1 - self.now);
        }
    }
}

/// Its request stands, and it has no grant.
pub fn waits(device: &Device, master: Master) -> bool {
    device.read(master, Register::Contr) & (LOCK_REQ | LOCK_GRANT) == LOCK_REQ
}

/// Who owns the bus.
pub fn owner(device: &Device) -> Option<Master> {
    let granted = |master: &Master| device.read(*master, Register::Contr) & LOCK_GRANT != 0;
    Master::BOTH.into_iter().find(granted)
}
