//! A standing device, kept as its image. Document 02, #108; its advance over quiet time, #113.
//!
//! The image has 38 bytes, and `docs/IMAGE.md` tells what each of them is and what it may be.

use core::fmt;

use crate::{boundary, Answer, Master, Part, Refusal};

/// The most ticks of one advance.
pub const MOST_TICKS: u32 = 65_535;

/// The bytes of a device's image.
pub const IMAGE_LENGTH: usize = 38;

/// A register of a master. Each master has its own eight.
#[derive(Clone, Copy, Debug, PartialEq, Eq, Hash, PartialOrd, Ord)]
pub enum Register {
    /// 0: always 38h.
    Id,
    /// 1: control.
    Contr,
    /// 2: status.
    Status,
    /// 3: the reserve in ms.
    Rt,
    /// 4: interrupt status.
    IntStatus,
    /// 5: interrupt mask.
    IntMsk,
    /// 6: the low byte of its own mailbox.
    MailLow,
    /// 7: the high byte of its own mailbox.
    MailHigh,
}

impl Register {
    /// In the order of their numbers.
    pub const ALL: [Register; 8] = [
        Register::Id,
        Register::Contr,
        Register::Status,
        Register::Rt,
        Register::IntStatus,
        Register::IntMsk,
        Register::MailLow,
        Register::MailHigh,
    ];

    /// Its number, to which the pointer of a COMMAND is set.
    pub fn number(self) -> u8 {
        self as u8
    }

    /// The register of this number.
    pub fn of(number: u8) -> Option<Register> {
        Register::ALL.into_iter().find(|register| register.number() == number)
    }
}

impl fmt::Display for Register {
    fn fmt(&self, f: &mut fmt::Formatter) -> fmt::Result {
        f.write_str(match self {
            Register::Id => "ID",
            Register::Contr => "CONTR",
            Register::Status => "STATUS",
            Register::Rt => "RT",
            Register::IntStatus => "INT_STATUS",
            Register::IntMsk => "INT_MSK",
            Register::MailLow => "mailbox low",
            Register::MailHigh => "mailbox high",
        })
    }
}

/// A device that stands between its events. It is its image and nothing else, so it can be kept,
/// sent and taken up again, and two devices are equal exactly if their images are.
///
/// Every image in it has its fields in range: `fresh` and `from_image` see to it, and the library is
/// proved to keep it so. So no step of a `Device` is refused with 9 or 16.
///
/// ```
/// use gunwaleish::{Device, Event, Master, Part, Refusal, Register};
///
/// // Master 0 asks for the bus and is granted it at its STOP.
/// let master = Master::Zero;
/// let mut device = Device::fresh(Part::Pca9641);
/// device.step(Event::Command { master, code: 1 });
/// device.step(Event::Write { master, value: 0x05 });
/// assert_eq!(device.step(Event::Stop { master }).owner, Some(Master::Zero));
/// assert_eq!(device.read(master, Register::Contr), 0x07);
///
/// // Kept as bytes and taken up again, it goes on where it stood.
/// let kept = *device.image();
/// let mut again = Device::from_image(&kept)?;
/// assert_eq!(again.step(Event::Tick), device.step(Event::Tick));
/// assert_eq!(again, device);
///
/// // A minute passes at once. The master holds the bus without a reserve, and nothing changes but counts.
/// assert_eq!(device.advance(60_000)?, 0);
/// assert_eq!(device.step(Event::Tick).owner, Some(Master::Zero));
///
/// // What is no image is refused, and so is one with a field that no run gives.
/// assert_eq!(Device::from_image(&kept[1..]), Err(Refusal::OtherLength));
/// let mut damaged = kept;
/// damaged[31] = 2;
/// assert_eq!(Device::from_image(&damaged), Err(Refusal::ImageOutOfRange));
/// # Ok::<(), gunwaleish::Refusal>(())
/// ```
#[derive(Clone, Debug, PartialEq, Eq, Hash)]
pub struct Device {
    image: [u8; IMAGE_LENGTH],
}

impl Device {
    /// A device of this kind after power-up.
    pub fn fresh(part: Part) -> Device {
        let mut image = [0; IMAGE_LENGTH];
        // No refusal: the part is one that there is, and the buffer has the length.
        boundary::image_fresh(part.number(), &mut image);
        Device { image }
    }

    /// The device of an image that was kept. Refusals, in this order: 9 if there are not 38 bytes, 16
    /// if a field is outside its range.
    ///
    /// A combination of fields that no run reaches is no refusal: each field by itself is judged.
    pub fn from_image(bytes: &[u8]) -> Result<Device, Refusal> {
        // A register that there is, so that the library judges the image alone.
        let packed = boundary::image_read(0, Register::Id.number(), bytes);
        if let Some(refusal) = Refusal::of_image(packed as u8) {
            return Err(refusal);
        }
        let image = bytes.try_into().map_err(|_| Refusal::OtherLength)?;
        Ok(Device { image })
    }

    /// The device of a listener, whose image the library keeps in range.
    pub(crate) fn of_listener(image: &[u8; IMAGE_LENGTH]) -> Device {
        Device { image: *image }
    }

    /// Takes one event, an `Event` or four bytes, and gives its answer. An event that is refused, with
    /// 2, 3 or 4, changes nothing, and its answer shows the device.
    pub fn step(&mut self, event: impl Into<[u8; 4]>) -> Answer {
        boundary::image_step(event.into(), &mut self.image).to_le_bytes().into()
    }

    /// Takes so many ticks at once, as many TICK events would leave it, and gives how many of them
    /// changed anything but counts: at most three, from any state that a run reaches. Refused with 3,
    /// `TooManyTicks`, past 65,535, and nothing changes.
    pub fn advance(&mut self, ticks: u32) -> Result<u32, Refusal> {
        let packed = boundary::image_advance(ticks, &mut self.image);
        match packed as u8 {
            3 => Err(Refusal::TooManyTicks),
            number => Refusal::of_image(number).map_or(Ok(packed >> 8), Err),
        }
    }

    /// What the master reads of its register, without an event: no mailbox is emptied, and no pointer
    /// moves.
    pub fn read(&self, master: Master, register: Register) -> u8 {
        (boundary::image_read(master.number(), register.number(), &self.image) >> 8) as u8
    }

    /// Its image.
    pub fn image(&self) -> &[u8; IMAGE_LENGTH] {
        &self.image
    }
}
