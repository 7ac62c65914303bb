//! An advance over quiet time. Document 02, #113: "equal in its end state to as many TICK events".
//! Here it is these TICK events, one after the other.

use crate::device::Device;
use crate::event::make::tick;
use crate::image::{image_of, read_image};

/// "An advance by up to 65,535 ticks."
pub const MOST_TICKS: u32 = 65_535;
/// "Past 65,535: refusal 3."
pub const TOO_MANY_TICKS: u8 = 3;

/// What an advance answers.
#[derive(Clone, Copy, Debug, PartialEq, Eq)]
pub struct Advanced {
    /// 0, or the number of the refusal.
    pub number: u8,
    /// "The number of those ticks that change anything other than counts."
    pub changing: u32,
}

impl Device {
    /// Past the most ticks: "device unchanged, 0 reported".
    pub fn advance(&mut self, ticks: u32) -> Advanced {
        if ticks > MOST_TICKS {
            return Advanced { number: TOO_MANY_TICKS, changing: 0 };
        }
        let mut changing = 0;
        for _ in 0..ticks {
            let before = self.clone();
            self.step(tick());
            changing += u32::from(differ_beside_counts(&before, self));
        }
        Advanced { number: 0, changing }
    }

    /// The device with its counts at 0: "reserve, hold, idle and both low counts".
    fn without_counts(&self) -> Device {
        Device {
            reserve_count: 0,
            hold: 0,
            idle_count: 0,
            scl_low_count: 0,
            sda_low_count: 0,
            ..self.clone()
        }
    }
}

/// "A change of the levels or of BUS_HUNG (one flag) is a change", though both follow from counts.
pub fn differ_beside_counts(before: &Device, after: &Device) -> bool {
    before.without_counts() != after.without_counts()
        || before.levels() != after.levels()
        || before.is_hung() != after.is_hung()
}

/// An advance on an image. 9 and 16 come first, and leave it as it was.
pub fn image_advance(ticks: u32, image: &mut [u8]) -> Advanced {
    let mut device = match read_image(image) {
        Ok(device) => device,
        Err(number) => return Advanced { number, changing: 0 },
    };
    let advanced = device.advance(ticks);
    image.copy_from_slice(&image_of(&device));
    advanced
}
