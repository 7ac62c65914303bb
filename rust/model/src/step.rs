//! One event. Document 01, "Order inside a step": seven parts, in that order. Part 5 is in `claim`.

use crate::device::*;
use crate::event::{read_event, Event, SOFT_RESET};

impl Device {
    /// Takes one event and gives its answer. A refused event (2, 3 or 4)
    /// changes nothing; its answer shows the unchanged device (reading 18).
    pub fn step(&mut self, event: [u8; 4]) -> [u8; 4] {
        let event = match read_event(event) {
            Ok(event) => event,
            Err(number) => return self.answer(number, 0),
        };
        if self.is_out_of_sequence(&event) {
            return self.answer(4, 0);
        }
        let before = self.clone();
        let (outcome, byte_read) = self.own_effect(&event); // part 1
        self.read_lines(&before, &event); // part 2
        self.take_losses(); // part 3
        self.cut_at_timeout(&before); // part 4
        self.choose_claimant(); // part 5
        self.make_grant(); // part 6
        self.connect(&before, &event); // part 7
        self.answer(outcome, byte_read)
    }

    /// "PULSE outside initialisation, WRITE or PAIR without the port(s) open
    /// for writing, and STOP at rest are 4."
    fn is_out_of_sequence(&self, event: &Event) -> bool {
        let may_write = |m: usize| self.masters[m].port == Port::OpenForWriting;
        match *event {
            Event::Write { master, .. } => !may_write(master),
            Event::Pair { .. } => !(may_write(0) && may_write(1)),
            Event::Stop { master } => self.masters[master].port == Port::AtRest,
            Event::Pulse { .. } => self.initialising().is_none(),
            _ => false,
        }
    }

    /// Part 1. Gives the outcome and the byte read.
    fn own_effect(&mut self, event: &Event) -> (u8, u8) {
        match *event {
            Event::Command { master, code } => return (self.command(master, code), 0),
            Event::Write { master, value } => return (self.write_bytes(&[(master, value)]), 0),
            Event::Pair { values } => {
                return (self.write_bytes(&[(0, values[0]), (1, values[1])]), 0)
            }
            Event::Read { master } => return (0, self.read_byte(master)),
            Event::Stop { master } => self.masters[master].port = Port::AtRest,
            Event::Lines { scl, sda, int_in } => self.set_outside(Levels { scl, sda }, int_in),
            Event::Tick => self.count_tick(),
            // A PULSE leaves the lines alone. What it means is said in part 7.
            Event::Pulse { .. } => {}
            // "Every other reset ends a running hold."
            Event::Reset => self.reset(0),
            Event::GeneralCall { master, code } => {
                if code != SOFT_RESET {
                    return (1, 0);
                }
                // The sender's bit is looked at before the reset clears it.
                let holds = self.masters[master].has(SMBUS_SWRST);
                self.reset(if holds { HOLD_TICKS } else { 0 });
            }
        }
        (0, 0)
    }

    /// LINES. "A fall of INT_IN sets bit 0 for both."
    fn set_outside(&mut self, levels: Levels, int_in: bool) {
        if self.int_in && !int_in {
            self.masters[0].int_status |= INT_IN;
            self.masters[1].int_status |= INT_IN;
        }
        self.outside = levels;
        self.int_in = int_in;
    }

    /// TICK. It counts by the levels and the idleness before it, that is
    /// before the hold falls (reading 5).
    fn count_tick(&mut self) {
        let levels = self.levels();
        let idle = self.is_idle();
        if self.reserve_count > 0 {
            self.reserve_count -= 1;
        }
        if self.hold > 0 {
            self.hold -= 1;
        }
        if !levels.scl {
            self.scl_low_count = (self.scl_low_count + 1).min(SCL_HUNG_TICKS);
        }
        if !levels.sda {
            self.sda_low_count = (self.sda_low_count + 1).min(SDA_HUNG_TICKS);
        }
        if idle {
            self.idle_count = (self.idle_count + 1).min(self.kind.idle_ticks());
        }
    }

    /// Part 2. START and STOP are read on the combined levels (reading 7).
    fn read_lines(&mut self, before: &Device, event: &Event) {
        let was = before.levels();
        let is = self.levels();
        let scl_stayed_high = was.scl && is.scl;
        if event.is_reset() {
            // "Resets detect neither and clear busy."
            self.busy = false;
        } else if scl_stayed_high && was.sda && !is.sda {
            self.busy = true; // START
        } else if scl_stayed_high && !was.sda && is.sda {
            self.busy = false; // STOP
        }
        if is.scl {
            self.scl_low_count = 0;
        }
        // "The SDA count restarts at every change of SCL's level" (#102). It does so here, after the
        // tick was counted: the TICK that ends a hold leaves it at 0.
        if is.sda || was.scl != is.scl {
            self.sda_low_count = 0;
        }
        if !self.is_idle() {
            self.idle_count = 0;
        }
    }

    /// Part 3. It is tested in every step, whatever the event (reading 3).
    fn take_losses(&mut self) {
        let Some(grant) = &self.grant else {
            return;
        };
        let owner = grant.owner;
        let lost = if grant.reserve > 0 {
            // "That many ticks have passed since the grant": none of them is left. The idle timer
            // does not touch a grant with a reserve.
            self.reserve_count == 0 && self.is_idle()
        } else {
            // Reserve 00h never runs out. Only the idle timer can end it.
            self.masters[owner].has(IDLE_TIMER_DIS) && self.idle_count == self.kind.idle_ticks()
        };
        if lost {
            self.masters[owner].contr &= !LOCK_REQ;
            self.masters[owner].int_status |= INT_LOST;
            self.end_grant();
        }
    }

    /// Part 4. It acts once, in the TICK that makes the count 35 (reading 4).
    /// Only a TICK raises the count, so the two counts name that step.
    fn cut_at_timeout(&mut self, before: &Device) {
        let made_35 = before.scl_low_count < TIMEOUT_TICKS && self.scl_low_count == TIMEOUT_TICKS;
        if let (true, Some(owner)) = (made_35, self.owner()) {
            if self.masters[owner].has(SMBUS_DIS) {
                self.masters[owner].contr &= !BUS_CONNECT; // "The grant stays."
            }
        }
    }

    /// Part 6. A busy bus does not hold back a grant (reading 6).
    fn make_grant(&mut self) {
        let Some(m) = self.claimant() else {
            return;
        };
        let at_rest = self.masters[m].port == Port::AtRest;
        if self.grant.is_none() && at_rest && self.hold == 0 {
            let reserve = i64::from(self.masters[m].rt);
            self.grant = Some(Grant { owner: m, reserve });
            self.reserve_count = reserve;
            self.idle_count = 0;
            self.last_granted = Some(m);
            self.masters[m].int_status |= INT_GRANTED;
        }
    }

    /// Part 7.
    fn connect(&mut self, before: &Device, event: &Event) {
        let Some(owner) = self.owner_with_connect() else {
            // "Losing either grant or BUS_CONNECT abandons it and leaves BUS_INIT."
            self.switch = Switch::Apart;
            return;
        };
        // "Become both true" is per master (reading 9). For whom they were true before, the switch
        // tells, closed or initialising.
        let become_true = before.switch_of() != Some(owner);
        if become_true && self.masters[owner].has(BUS_INIT) {
            self.switch = Switch::Initialising { master: owner, zeros: 0 };
            self.bus_init_fail = false;
            return;
        }
        match self.switch {
            Switch::Initialising { master, zeros } if master == owner => {
                if let Event::Pulse { sda } = event {
                    self.take_pulse(owner, *sda, zeros);
                }
            }
            // "Otherwise the switch is closed exactly if both are true."
            _ => self.switch = Switch::Closed(owner),
        }
    }

    /// One clock of an initialisation that has had some PULSE of 0 already.
    fn take_pulse(&mut self, owner: usize, sda: bool, zeros: i64) {
        if sda {
            self.masters[owner].contr &= !BUS_INIT;
            self.switch = Switch::Closed(owner);
        } else if zeros + 1 == 9 {
            self.masters[owner].contr &= !(BUS_INIT | BUS_CONNECT);
            self.bus_init_fail = true;
            self.switch = Switch::Apart;
        } else {
            self.switch = Switch::Initialising { master: owner, zeros: zeros + 1 };
        }
    }
}
