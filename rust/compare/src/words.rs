//! Events and answers in words.

use model::event::{read_event, Event};
use model::trace::hex;

pub fn event_in_words(bytes: [u8; 4]) -> String {
    let words = match read_event(bytes) {
        Err(number) => format!("no event (refusal {number})"),
        Ok(Event::Command { master, code }) => format!("COMMAND {code:02X}h of master {master}"),
        Ok(Event::Write { master, value }) => format!("WRITE {value:02X}h of master {master}"),
        Ok(Event::Read { master }) => format!("READ of master {master}"),
        Ok(Event::Stop { master }) => format!("STOP of master {master}"),
        Ok(Event::Pair { values: [v0, v1] }) => format!("PAIR {v0:02X}h and {v1:02X}h"),
        Ok(Event::Lines { scl, sda, int_in }) => {
            format!("LINES SCL {}, SDA {}, INT_IN {}", level(scl), level(sda), level(int_in))
        }
        Ok(Event::Tick) => "TICK".to_string(),
        Ok(Event::Pulse { sda }) => format!("PULSE SDA {}", level(sda)),
        Ok(Event::Reset) => "RESET".to_string(),
        Ok(Event::GeneralCall { master, code }) => {
            format!("GENERAL CALL {code:02X}h of master {master}")
        }
    };
    format!("{} = {words}", hex(&bytes))
}

pub fn answer_in_words(answer: [u8; 4]) -> String {
    let [outcome, byte, bus, pins] = answer;
    let outcome = match outcome {
        0 => "done".to_string(),
        1 => "not acknowledged".to_string(),
        number => format!("refused {number}"),
    };
    let initialising = if bus & 0x10 != 0 { ", initialising" } else { "" };
    let ground = match bus >> 5 {
        0 => "no claim",
        1 => "ground sole requester",
        2 => "ground priority",
        3 => "ground last granted",
        _ => "bit 7 set",
    };
    let asserted = |bit: u8| if pins & bit != 0 { "asserted" } else { "quiet" };
    format!(
        "{} = {outcome}, byte {byte:02X}h, owner {}, switch {}{initialising}, {ground}, INT0 {}, \
         INT1 {}, SCL {}, SDA {}",
        hex(&answer),
        who(bus & 3),
        who((bus >> 2) & 3),
        asserted(1),
        asserted(2),
        level(pins & 4 != 0),
        level(pins & 8 != 0)
    )
}

fn who(bits: u8) -> &'static str {
    ["none", "master 0", "master 1", "3"][usize::from(bits & 3)]
}

fn level(high: bool) -> &'static str {
    if high {
        "high"
    } else {
        "low"
    }
}
