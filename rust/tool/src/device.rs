//! The device that a command line names: by its address or its pins, and by its part.

use std::error::Error;
use std::fmt;

use gunwaleish::{Part, Pins, Refusal};

use crate::arguments::Arguments;
use crate::failure::Failure;

/// Whom a capture is read for, or a sheet's events are written for.
#[derive(Clone, Copy, Debug, PartialEq, Eq)]
pub struct Device {
    pub address: u8,
    pub pins: Pins,
    pub part: Part,
}

/// The device that the command line names. Messages have the command's name.
pub fn read_device(command: &str, arguments: &Arguments) -> Result<Device, Failure> {
    let words = |name| arguments.options.get(name).map(Vec::as_slice).unwrap_or_default();
    device_of(command, words("--address"), words("--pins"), words("--part"))
        .map_err(|what| Failure::Wrong(format!("{what}; gunwaleish {command} --help tells more")))
}

/// What is wrong with the words that name a device.
#[derive(Clone, Debug, PartialEq, Eq)]
pub enum Unnamed {
    /// This command needs a device, and none is named.
    NoDevice { command: String },
    /// It is named twice.
    Twice,
    /// A word that is no byte.
    NoByte(String),
    /// The library refuses the address.
    Address { address: u8, refusal: Refusal },
    /// The library refuses the pins.
    Pins(Refusal),
    /// This command needs the part, and none is named.
    NoPart { command: String },
    /// A word that names no part.
    NoSuchPart(String),
}

impl fmt::Display for Unnamed {
    fn fmt(&self, f: &mut fmt::Formatter) -> fmt::Result {
        match self {
            Unnamed::NoDevice { command } => {
                write!(f, "{command} needs the device: --address, or --pins")
            }
            Unnamed::Twice => f.write_str("--address and --pins are both there"),
            Unnamed::NoByte(word) => write!(f, "'{}' is no byte in hex", word.escape_debug()),
            Unnamed::Address { address, refusal } => {
                write!(f, "{refusal}{}", as_first_byte(*address))
            }
            Unnamed::Pins(refusal) => refusal.fmt(f),
            Unnamed::NoPart { command } => write!(
                f,
                "{command} needs the part: {EITHER}; a kind left out and read as a default is how the \
                 incident came about"
            ),
            Unnamed::NoSuchPart(name) => {
                write!(f, "'{}' is no part, expected {EITHER}", name.escape_debug())
            }
        }
    }
}

impl Error for Unnamed {
    fn source(&self) -> Option<&(dyn Error + 'static)> {
        match self {
            Unnamed::Address { refusal, .. } | Unnamed::Pins(refusal) => Some(refusal),
            _ => None,
        }
    }
}

const EITHER: &str = "--part PCA9641 or --part TPT29641";

/// The device of the words after --address or --pins, and after --part; or what is wrong with them.
pub fn device_of(
    command: &str,
    address: &[String],
    pins: &[String],
    part: &[String],
) -> Result<Device, Unnamed> {
    let (address, pins) = strapping(command, address, pins)?;
    Ok(Device { address, pins, part: the_part(command, part)? })
}

/// The address and the pins, out of the words after --address or after --pins.
fn strapping(command: &str, address: &[String], pins: &[String]) -> Result<(u8, Pins), Unnamed> {
    match (address, pins) {
        ([address], []) => {
            let address = number(address)?;
            let refused = |refusal| Unnamed::Address { address, refusal };
            Ok((address, Pins::of_address(address).map_err(refused)?))
        }
        ([], [ad3, ad2, ad1, ad0]) => {
            let pins = Pins::from([number(ad3)?, number(ad2)?, number(ad1)?, number(ad0)?]);
            Ok((pins.address().map_err(Unnamed::Pins)?, pins))
        }
        ([], []) => Err(Unnamed::NoDevice { command: command.to_string() }),
        _ => Err(Unnamed::Twice),
    }
}

/// The part, which has no default.
fn the_part(command: &str, words: &[String]) -> Result<Part, Unnamed> {
    match words {
        [name] => read_part(name),
        _ => Err(Unnamed::NoPart { command: command.to_string() }),
    }
}

/// The part that a word after --part names.
pub fn read_part(name: &str) -> Result<Part, Unnamed> {
    Part::named(name).ok_or_else(|| Unnamed::NoSuchPart(name.to_string()))
}

/// A byte in hex. Some people write 70h or 0x70.
fn number(word: &str) -> Result<u8, Unnamed> {
    let digits = word.strip_prefix("0x").or(word.strip_suffix('h')).unwrap_or(word);
    let plain = (1..=2).contains(&digits.len()) && digits.bytes().all(|c| c.is_ascii_hexdigit());
    let byte = u8::from_str_radix(digits, 16).ok().filter(|_| plain);
    byte.ok_or_else(|| Unnamed::NoByte(word.to_string()))
}

/// What to do if the address was given as a transfer's first byte.
fn as_first_byte(byte: u8) -> String {
    match byte {
        0x80.. => format!("; if {byte:02X}h is a transfer's first byte, it is {:02X}h", byte / 2),
        _ => String::new(),
    }
}
