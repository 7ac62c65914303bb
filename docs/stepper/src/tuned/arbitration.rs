//! What follows from an event in the tuned stepper: lines, losses, claim, grant and switch.

use super::registers::*;

impl Device {
    /// Parts 2, 3, 5, 6 and 7. The cut of part 4 is in a TICK alone.
    pub fn settle(&mut self, before: u8) {
        self.read_lines(before);
        self.lose();
        self.claim();
        self.grant();
        self.connect();
    }

    /// START, STOP and the counts, by the levels before the event and now.
    pub fn read_lines(&mut self, before: u8) {
        let now = self.levels();
        if before & now & SCL != 0 && (before ^ now) & SDA != 0 {
            self.busy = now & SDA == 0;
        }
        if now & SCL != 0 {
            self.scl_low = 0;
        }
        // SDA's count restarts where SCL toggles, too.
        if now & SDA != 0 || (before ^ now) & SCL != 0 {
            self.sda_low = 0;
        }
        if self.busy || now != BOTH {
            self.idle = 0;
        }
    }

    /// The reserve runs out on an idle bus; without one only the idle timer ends a grant.
    pub fn lose(&mut self) {
        let Turn::Owns(m, _) = self.turn else {
            return;
        };
        let side = self.sides[m as usize];
        let lost = if side.rt != 0 {
            self.reserve_left == 0 && !self.busy && self.levels() == BOTH
        } else {
            side.contr & IDLE_TIMER_DIS != 0 && self.idle == self.kind.idle_limit()
        };
        if lost {
            self.end_grant(m);
            let side = self.side(m);
            side.contr &= !LOCK_REQ;
            side.int_status |= 0x02;
        }
    }

    /// SCL low for 35 ticks cuts the owner's connection, not its grant.
    pub fn cut(&mut self) {
        let Turn::Owns(m, _) = self.turn else {
            return;
        };
        let side = self.side(m);
        if side.contr & SMBUS_DIS != 0 {
            side.contr &= !BUS_CONNECT;
            self.switch = Switch::Open;
        }
    }

    pub fn claim(&mut self) {
        let requests = |m: Master| self.sides[m as usize].contr & LOCK_REQ != 0;
        match self.turn {
            Turn::Owns(..) => return,
            Turn::Claims(m, _) if requests(m) => return,
            _ => {}
        }
        self.turn = match (requests(Master::Zero), requests(Master::One)) {
            (false, false) => Turn::Nobody,
            (true, false) => Turn::Claims(Master::Zero, Ground::Sole),
            (false, true) => Turn::Claims(Master::One, Ground::Sole),
            (true, true) => self.contest(),
        };
    }

    fn contest(&self) -> Turn {
        let first = self.sides[0].contr & PRIORITY != 0;
        let second = self.sides[1].contr & PRIORITY != 0;
        let (winner, ground) = match (first, second, self.last_granted) {
            (true, false, _) => (Master::Zero, Ground::Priority),
            (false, true, _) => (Master::One, Ground::Priority),
            (_, _, Some(last)) => (last.partner(), Ground::LastGranted),
            (false, false, None) => (Master::Zero, Ground::LastGranted),
            (true, true, None) => (Master::One, Ground::LastGranted),
        };
        Turn::Claims(winner, ground)
    }

    pub fn grant(&mut self) {
        let Turn::Claims(m, ground) = self.turn else {
            return;
        };
        let side = &mut self.sides[m as usize];
        if side.port != Port::AtRest || self.hold > 0 {
            return;
        }
        side.int_status |= 0x04;
        self.reserve_left = side.rt;
        self.turn = Turn::Owns(m, ground);
        self.idle = 0;
        self.last_granted = Some(m);
    }

    /// The switch follows grant and BUS_CONNECT, by way of an initialisation if BUS_INIT is set.
    pub fn connect(&mut self) {
        let owner = match self.turn {
            Turn::Owns(m, _) => Some(m),
            _ => None,
        };
        let joined = owner.filter(|&m| self.sides[m as usize].contr & BUS_CONNECT != 0);
        let Some(m) = joined else {
            self.switch = Switch::Open;
            return;
        };
        let stands = match self.switch {
            Switch::Open => false,
            Switch::Initialising(served, _) | Switch::Closed(served) => served == m,
        };
        if stands {
            return;
        }
        if self.sides[m as usize].contr & BUS_INIT != 0 {
            self.init_fail = false;
            self.switch = Switch::Initialising(m, 0);
        } else {
            self.switch = Switch::Closed(m);
        }
    }
}
