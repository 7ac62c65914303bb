//! What is found, in words: a difference with its bits by name.

use gunwaleish::{Check, Register};

use super::finding::{Finding, Found};
use crate::samples::rate::time_of;
use crate::words::ticks;

/// The bits of the registers of bits from bit 7 down: the data sheet's name, and document 01's word where it has another.
const CONTR: [(&str, &str); 8] = [
    ("PRIORITY", ""),
    ("SMBUS_DIS", ""),
    ("IDLE_TIMER_DIS", "1 turns the idle timer on"),
    ("SMBUS_SWRST", ""),
    ("BUS_INIT", ""),
    ("BUS_CONNECT", ""),
    ("LOCK_GRANT", ""),
    ("LOCK_REQ", ""),
];
const STATUS: [(&str, &str); 8] = [
    ("SDA", ""),
    ("SCL", ""),
    ("TEST_INT", ""),
    ("MBOX_FULL", "own mailbox full"),
    ("MBOX_EMPTY", "partner's mailbox empty"),
    ("BUS_HUNG", ""),
    ("BUS_INIT_FAIL", ""),
    ("OTHER_LOCK", "partner granted"),
];
const INTS: [(&str, &str); 8] = [
    ("bit 7", ""),
    ("hung", ""),
    ("mail full", ""),
    ("mail emptied", ""),
    ("test", ""),
    ("granted", ""),
    ("lost", ""),
    ("INT_IN", ""),
];

/// The bits of a register that differ, by name: "OTHER_LOCK (partner granted) is set". Nothing of a
/// register that is no set of bits.
pub fn bits(register: Register, heard: u8, differing: u8) -> Vec<String> {
    let names = match register {
        Register::Contr => CONTR,
        Register::Status => STATUS,
        Register::IntStatus | Register::IntMsk => INTS,
        Register::Id | Register::Rt | Register::MailLow | Register::MailHigh => return vec![],
    };
    let said = |place: usize| {
        let bit = 0x80 >> place;
        let (name, word) = names[place];
        let word = if word.is_empty() { String::new() } else { format!(" ({word})") };
        let is = if heard & bit != 0 { "set" } else { "clear" };
        (differing & bit != 0).then(|| format!("{name}{word} is {is}"))
    };
    (0..8).filter_map(said).collect()
}

/// "STATUS: heard 29h, expected 28h, OTHER_LOCK (partner granted) is set".
pub fn read(check: &Check) -> String {
    let Check { register, heard, expected, .. } = *check;
    let bits = bits(register, heard, heard ^ expected);
    let bits: String = bits.iter().map(|bit| format!(", {bit}")).collect();
    format!("{register}: heard {heard:02X}h, expected {expected:02X}h{bits}")
}

/// A line about what was found, with its time and sample.
pub fn line(found: &Found) -> String {
    let place = format!("{}, sample {}", time_of(found.sample, found.rate), found.sample);
    format!("{place}: {}", said(&found.finding))
}

/// The same without the place.
pub fn said(finding: &Finding) -> String {
    match finding {
        Finding::Difference(check) => format!("controller {}: {}", check.master, read(check)),
        Finding::Overtaken(check) => format!(
            "controller {}: {}; overtaken: the model answered {:02X}h while the byte was on the bus",
            check.master,
            read(check),
            check.heard
        ),
        Finding::Fault { buses } => {
            let on: Vec<String> = buses
                .iter()
                .map(|(bus, is_start)| {
                    format!("{} on bus {bus}", if *is_start { "START" } else { "STOP" })
                })
                .collect();
            format!("{} inside a byte, which is lost", on.join(" or "))
        }
        Finding::LongWait { master, promised } => format!(
            "controller {master} waits longer than {}, which the sheets promise",
            ticks(*promised as usize)
        ),
        Finding::Taken { register, things, left } => {
            let things = match things.is_empty() {
                true => "nothing".to_string(),
                false => things.join("; "),
            };
            let left = match left.is_empty() {
                true => String::new(),
                false => format!("; not decided by it: {}", left.join(", ")),
            };
            format!("taken from {register}: {things}{left}")
        }
    }
}
