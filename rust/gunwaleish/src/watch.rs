//! A listener on both upstream buses, with the model beside the chip.
//!
//! It takes the samples of a logic analyser as they come, in pieces of any length, makes events of them as
//! an import of a capture does, steps a device with each, and holds the byte of every READ on the bus
//! against the device's answer. `docs/CAPTURES.md` tells what a difference proves and what it does not.

use crate::{boundary, Device, Master, Part, Refusal, Register, IMAGE_LENGTH};

/// The bytes of a listener.
pub const WATCH_LENGTH: usize = 142;

/// Places in its bytes. Numbers of several bytes have the low one first.
mod at {
    pub const ADDRESS: usize = 38;
    pub const EVERY: usize = 39;
    pub const BELOW: usize = 43;
    pub const SAMPLES: usize = 58;
    pub const EVENTS: usize = 66;
    pub const READS: usize = 74;
    pub const DIFFERENCES: usize = 82;
    pub const FAULTS: usize = 90;
    pub const FAULT: usize = 98;
    pub const FIRST: usize = 106;
    pub const LAST: [usize; 2] = [118, 130];
    /// The kind of part, in the image.
    pub const KIND: usize = 31;
}

/// What a listener is told before the first sample.
#[derive(Clone, Copy, Debug, PartialEq, Eq, Hash)]
pub struct WatchSettings {
    /// The part that is said to be fitted.
    pub part: Part,
    /// The seven-bit address of the device, one of 08h to 77h.
    pub address: u8,
    /// So many samples are a TICK, a millisecond. With 0 there is none.
    pub every: u32,
    /// Bits 4, 5 and 6 of a sample are the downstream SCL, SDA and INT_IN. If not, they are not looked at.
    pub below: bool,
}

/// A READ, held against the model.
#[derive(Clone, Copy, Debug, PartialEq, Eq, Hash)]
pub struct Check {
    /// The sample of its ninth clock. The first sample of all has the number 0.
    pub sample: u64,
    /// Who read.
    pub master: Master,
    /// The register that was read.
    pub register: Register,
    /// The byte on SDA.
    pub heard: u8,
    /// The model's answer.
    pub expected: u8,
}

impl Check {
    /// The byte on the bus is not the model's answer.
    pub fn differs(&self) -> bool {
        self.heard != self.expected
    }
}

/// A listener that stands between the pieces of its samples: a buffer of 142 bytes, with both buses'
/// decoders, the device's image and what was found. It can be kept as bytes and taken up again.
///
/// ```
/// use gunwaleish::{Master, Part, Register, Watch, WatchSettings};
///
/// // Both buses at rest, a sample every microsecond: 1,000 samples are a TICK.
/// let settings = WatchSettings { part: Part::Pca9641, address: 0x70, every: 1000, below: false };
/// let mut watch = Watch::fresh(settings)?;
/// assert_eq!(watch.listen(&[0x0F; 2001]), 2001);
/// assert_eq!((watch.samples(), watch.events()), (2001, 2));
///
/// // Controller 0 reads ID of the device at 70h, whose first byte is E1h. The chip gives 39h.
/// let mut samples = vec![0x0F, 0x0D];
/// let bits = [1, 1, 1, 0, 0, 0, 0, 1, 0, 0, 0, 1, 1, 1, 0, 0, 1, 1];
/// for bit in bits {
///     samples.extend([0x0C | bit << 1, 0x0D | bit << 1]);
/// }
/// samples.extend([0x0C, 0x0D, 0x0F]);
/// // It stops with the sample in which the READ differs, and goes on with the rest.
/// let taken = watch.listen(&samples);
/// assert_eq!((taken, watch.differences()), (38, 1));
/// let read = watch.last_read(Master::Zero).unwrap();
/// assert_eq!((read.register, read.heard, read.expected), (Register::Id, 0x39, 0x38));
/// assert_eq!(watch.first_difference(), Some(read));
/// assert_eq!(watch.listen(&samples[taken..]), 3);
///
/// // Kept as bytes and taken up again.
/// assert_eq!(Watch::from_bytes(watch.bytes())?, watch);
/// # Ok::<(), gunwaleish::Refusal>(())
/// ```
#[derive(Clone, Debug, PartialEq, Eq, Hash)]
pub struct Watch {
    bytes: [u8; WATCH_LENGTH],
}

impl Watch {
    /// A listener before its first sample, with a device after power-up. Refused with 11 if the address is
    /// not one of 08h to 77h.
    pub fn fresh(settings: WatchSettings) -> Result<Watch, Refusal> {
        let WatchSettings { part, address, every, below } = settings;
        let mut bytes = [0; WATCH_LENGTH];
        let number =
            boundary::watch_fresh(part.number(), address, every, u8::from(below), &mut bytes);
        Refusal::of_watch(number as u8).map_or(Ok(Watch { bytes }), Err)
    }

    /// The listener that was kept as bytes. Refused with 9 if there are not 142 bytes, and with 16 if a
    /// field is outside its range.
    pub fn from_bytes(bytes: &[u8]) -> Result<Watch, Refusal> {
        let mut bytes: [u8; WATCH_LENGTH] =
            bytes.try_into().map_err(|_| Refusal::OtherWatchLength)?;
        // No sample, so that the library judges the bytes alone.
        let packed = boundary::watch_listen(&[], &mut bytes);
        Refusal::of_watch(packed as u8).map_or(Ok(Watch { bytes }), Err)
    }

    /// Takes the samples that come next, all of them, or up to and with the first in which a READ differs
    /// or a fault is counted. Gives how many it took; the rest is to be given again.
    ///
    /// However the samples are cut into pieces, what is found is the same.
    pub fn listen(&mut self, samples: &[u8]) -> usize {
        // No refusal: the bytes are those of a listener.
        (boundary::watch_listen(samples, &mut self.bytes) >> 8) as usize
    }

    /// What it was told before the first sample.
    pub fn settings(&self) -> WatchSettings {
        let every = [0, 1, 2, 3].map(|place| self.bytes[at::EVERY + place]);
        WatchSettings {
            part: Part::of(self.bytes[at::KIND]).unwrap_or(Part::Pca9641),
            address: self.bytes[at::ADDRESS],
            every: u32::from_le_bytes(every),
            below: self.bytes[at::BELOW] == 1,
        }
    }

    /// How many samples were taken. This count and the others stop at the top of 64 bits.
    pub fn samples(&self) -> u64 {
        self.number(at::SAMPLES)
    }

    /// How many events came of them.
    pub fn events(&self) -> u64 {
        self.number(at::EVENTS)
    }

    /// How many of these are READs.
    pub fn reads(&self) -> u64 {
        self.number(at::READS)
    }

    /// How many READs differed.
    pub fn differences(&self) -> u64 {
        self.number(at::DIFFERENCES)
    }

    /// How often a START or STOP came inside a byte. The byte is lost, and listening goes on.
    pub fn faults(&self) -> u64 {
        self.number(at::FAULTS)
    }

    /// The sample of the first fault.
    pub fn first_fault(&self) -> Option<u64> {
        (self.faults() > 0).then(|| self.number(at::FAULT))
    }

    /// The first READ that differed.
    pub fn first_difference(&self) -> Option<Check> {
        (self.differences() > 0).then(|| self.check(at::FIRST))
    }

    /// The last READ of a master, whether it differed or not.
    pub fn last_read(&self, master: Master) -> Option<Check> {
        let check = self.check(at::LAST[master as usize]);
        // The first sample is only a starting level, so none stands there.
        (check.sample > 0).then_some(check)
    }

    /// The device as it stands.
    pub fn device(&self) -> Device {
        Device::of_listener(self.image())
    }

    /// Its image, the first bytes of the listener.
    pub fn image(&self) -> &[u8; IMAGE_LENGTH] {
        self.bytes.first_chunk().expect("a listener is longer than an image")
    }

    /// Goes on with this device in the place of its own. The counts and both buses stay.
    ///
    /// What is proved of a listener is of one with its own device: after this, what differs says that the chip
    /// is not as this device.
    pub fn go_on_with(&mut self, device: &Device) {
        self.bytes[..IMAGE_LENGTH].copy_from_slice(device.image());
    }

    /// Its bytes.
    pub fn bytes(&self) -> &[u8; WATCH_LENGTH] {
        &self.bytes
    }

    fn number(&self, place: usize) -> u64 {
        let bytes = [0, 1, 2, 3, 4, 5, 6, 7].map(|byte| self.bytes[place + byte]);
        u64::from_le_bytes(bytes)
    }

    fn check(&self, place: usize) -> Check {
        let [master, register, heard, expected] =
            [8, 9, 10, 11].map(|byte| self.bytes[place + byte]);
        Check {
            sample: self.number(place),
            master: if master == 0 { Master::Zero } else { Master::One },
            // The library keeps it in range.
            register: Register::of(register).unwrap_or(Register::Id),
            heard,
            expected,
        }
    }
}
