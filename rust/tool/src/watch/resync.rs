//! `--resync`: after a difference the model takes what the READ shows, as far as that decides its state.

use gunwaleish::{Check, Device, Master, Register};

/// Places in an image (`docs/IMAGE.md`): of controller 0, and how far those of controller 1 are.
const CONTR: usize = 0;
const RT: usize = 1;
const INTS: usize = 2;
const MAIL_FULL: usize = 6;
const NEXT: usize = 7;
const RESERVE: usize = 14;
const OUTSIDE_SCL: usize = 21;
const OUTSIDE_SDA: usize = 22;
const DRIVE_SCL: usize = 24;
const DRIVE_SDA: usize = 25;
const TURN: usize = 27;
const LAST: usize = 28;
const SWITCH: usize = 29;
const INIT_FAIL: usize = 30;

const LOCK_GRANT: u8 = 0x02;
/// The turn of an owner that was the only one who asked, by master.
const OWNS: [u8; 2] = [7, 10];

/// What was taken of a READ.
#[derive(Clone, Debug, PartialEq, Eq)]
pub struct Taken {
    pub device: Device,
    /// In words, a thing each.
    pub things: Vec<String>,
    /// The bits that still differ.
    pub left: u8,
}

/// The device with what a READ showed, if its register tells of the state. Where the bus below is
/// watched, its lines are known already.
pub fn resync(device: &Device, check: &Check, below: bool) -> Option<Taken> {
    let mut image = *device.image();
    let mut things = vec![];
    let differing = check.heard ^ check.expected;
    let mut take = Take { image: &mut image, things: &mut things, heard: check.heard, differing };
    match check.register {
        Register::Contr => take.contr(check.master),
        Register::Status => take.status(check.master, below),
        Register::IntStatus => take.ints(check.master),
        _ => return None,
    }
    // Each field is in its range, since it was taken bit by bit; were one not, nothing is taken.
    let device = Device::from_image(&image).ok()?;
    let left = device.read(check.master, check.register) ^ check.heard;
    Some(Taken { device, things, left })
}

struct Take<'a> {
    image: &'a mut [u8; gunwaleish::IMAGE_LENGTH],
    things: &'a mut Vec<String>,
    heard: u8,
    differing: u8,
}

impl Take<'_> {
    fn differs(&self, bit: u8) -> bool {
        self.differing & bit != 0
    }

    fn is_set(&self, bit: u8) -> bool {
        self.heard & bit != 0
    }

    fn contr(&mut self, master: Master) {
        let stored = self.heard & !LOCK_GRANT;
        let place = CONTR + NEXT * master as usize;
        if self.image[place] != stored {
            self.image[place] = stored;
            self.things.push(format!("controller {master}'s CONTR is {:02X}h", self.heard));
        }
        if self.differs(LOCK_GRANT) {
            self.grant(master, self.is_set(LOCK_GRANT));
        }
    }

    /// That a controller owns the bus, or does not. How much of its reserve is left nobody sees, so it is
    /// counted from here.
    fn grant(&mut self, master: Master, owns: bool) {
        self.image[SWITCH] = 0;
        if !owns {
            self.image[TURN] = 0;
            return self.things.push(format!("controller {master} does not own the bus"));
        }
        self.image[TURN] = OWNS[master as usize];
        self.image[LAST] = 1 + master.number();
        self.image[RESERVE] = self.image[RT + NEXT * master as usize];
        self.things
            .push(format!("controller {master} owns the bus, and its reserve counts from here"));
    }

    fn status(&mut self, master: Master, below: bool) {
        let partner = master.partner();
        let full = |master: Master| MAIL_FULL + NEXT * master as usize;
        if self.differs(0x01) {
            self.grant(partner, self.is_set(0x01));
        }
        if self.differs(0x02) {
            self.image[INIT_FAIL] = u8::from(self.is_set(0x02));
            self.things.push(format!("BUS_INIT_FAIL is {}", u8::from(self.is_set(0x02))));
        }
        for (bit, of, is_full) in
            [(0x08, partner, !self.is_set(0x08)), (0x10, master, self.is_set(0x10))]
        {
            if self.differs(bit) {
                self.image[full(of)] = u8::from(is_full);
                let state = if is_full { "full" } else { "empty" };
                self.things.push(format!("controller {of}'s mailbox is {state}"));
            }
        }
        let lines = [(0x40, OUTSIDE_SCL, DRIVE_SCL, "SCL"), (0x80, OUTSIDE_SDA, DRIVE_SDA, "SDA")];
        for (bit, outside, drive, name) in lines {
            if self.differs(bit) && !below {
                let high = self.is_set(bit);
                self.image[outside] = u8::from(high);
                self.image[drive] |= u8::from(high);
                let level = if high { "high" } else { "low" };
                self.things.push(format!("{name} below is {level}"));
            }
        }
    }

    /// Bit 6 is BUS_HUNG, a count of ticks, which one look does not decide.
    fn ints(&mut self, master: Master) {
        let stored = self.heard & 0x3F;
        let place = INTS + NEXT * master as usize;
        if self.image[place] != stored {
            self.image[place] = stored;
            self.things.push(format!("controller {master}'s INT_STATUS is {stored:02X}h"));
        }
    }
}
