//! The four address pins. Document 01, "Straps".

use core::fmt;

use crate::{boundary, Refusal};

/// A strapping: the codes of the four pins. 0 is VSS, 1 VDD, 2 pull-down, 3 pull-up.
///
/// Any codes can stand here. Whether a strapping has an address, the library says.
///
/// ```
/// use gunwaleish::{Pins, Refusal};
///
/// let pins = Pins::of_address(0x71)?;
/// assert_eq!(pins, Pins { ad3: 0, ad2: 0, ad1: 0, ad0: 1 });
/// assert_eq!(pins.address(), Ok(0x71));
/// // AD3 at VDD and three ties have no address.
/// assert_eq!(Pins::from([1, 0, 0, 0]).address(), Err(Refusal::NoSuchStrapping));
/// # Ok::<(), Refusal>(())
/// ```
#[derive(Clone, Copy, Debug, Default, PartialEq, Eq, Hash)]
pub struct Pins {
    /// The code of AD3, which has to be a tie, 0 or 1. With the class of the other three, tie or
    /// resistor each, it gives the first address of eight.
    pub ad3: u8,
    /// The code of AD2, which gives bit 2 of the address.
    pub ad2: u8,
    /// The code of AD1, which gives bit 1 of the address.
    pub ad1: u8,
    /// The code of AD0, which gives bit 0 of the address.
    pub ad0: u8,
}

impl Pins {
    /// The one strapping of an address.
    pub fn of_address(address: u8) -> Result<Pins, Refusal> {
        pins_of(address).map(Pins::from)
    }

    /// The address of this strapping.
    pub fn address(self) -> Result<u8, Refusal> {
        address_of(self)
    }
}

/// The codes of AD3, AD2, AD1 and AD0, as a trace has them.
impl From<[u8; 4]> for Pins {
    fn from([ad3, ad2, ad1, ad0]: [u8; 4]) -> Pins {
        Pins { ad3, ad2, ad1, ad0 }
    }
}

impl From<Pins> for [u8; 4] {
    fn from(pins: Pins) -> [u8; 4] {
        [pins.ad3, pins.ad2, pins.ad1, pins.ad0]
    }
}

impl fmt::Display for Pins {
    fn fmt(&self, f: &mut fmt::Formatter) -> fmt::Result {
        write!(f, "{} {} {} {}", self.ad3, self.ad2, self.ad1, self.ad0)
    }
}

/// The address of a strapping. Four codes pass as well as `Pins`.
pub fn address_of(pins: impl Into<Pins>) -> Result<u8, Refusal> {
    let [number, address, ..] = boundary::address_of(pins.into().into()).to_le_bytes();
    Refusal::of(number).map_or(Ok(address), Err)
}

/// The one strapping of an address, as the codes of AD3, AD2, AD1 and AD0. `Pins::of_address`
/// gives it with names.
pub fn pins_of(address: u8) -> Result<[u8; 4], Refusal> {
    let [number, ad3, ad2, ad1, ad0, ..] = boundary::pins_of(address).to_le_bytes();
    Refusal::of(number).map_or(Ok([ad3, ad2, ad1, ad0]), Err)
}
