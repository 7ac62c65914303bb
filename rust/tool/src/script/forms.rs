//! The lines that a script can have, each with an example and what it says: for help beside a text that is
//! being written. A test reads every example as a script has it.

use gunwaleish::{Part, Register};

use crate::words;

/// A line of a script.
pub struct Form {
    pub word: &'static str,
    pub example: &'static str,
    pub says: &'static str,
    /// What stands after the word.
    pub arguments: &'static [Argument],
}

/// What can stand after a word.
#[derive(Clone, Copy, Debug, PartialEq, Eq)]
pub enum Argument {
    Pin,
    Part,
    Controller,
    Register,
    Level,
    GeneralCall,
    /// Any byte.
    Byte,
    /// A count of ticks, which may be left out.
    Count,
}

impl Argument {
    /// What can be put there and what each is; nothing where any number goes.
    pub fn choices(self) -> Vec<(String, String)> {
        let said = |choices: &[(&str, &str)]| -> Vec<(String, String)> {
            choices.iter().map(|(put, says)| (put.to_string(), says.to_string())).collect()
        };
        match self {
            Argument::Pin => {
                said(&[("0", "VSS"), ("1", "VDD"), ("2", "pull-down"), ("3", "pull-up")])
            }
            Argument::Part => {
                Part::BOTH.map(|part| (part.name().to_string(), words::part(part))).into()
            }
            Argument::Controller => said(&[("0", "controller 0"), ("1", "controller 1")]),
            Argument::Register => Register::ALL
                .map(|register| (format!("{:02X}", register.number()), register.to_string()))
                .into(),
            Argument::Level => said(&[("0", "low"), ("1", "high")]),
            Argument::GeneralCall => said(&[("06", "soft reset")]),
            Argument::Byte | Argument::Count => vec![],
        }
    }
}

use Argument::{Byte, Controller, Count, GeneralCall, Level, Pin};

/// All lines, in the order in which one meets them.
pub const FORMS: [Form; 13] = [
    Form {
        word: "pins",
        example: "pins 0 0 0 1",
        says: "the codes of AD3 to AD0; once, before the first event",
        arguments: &[Pin, Pin, Pin, Pin],
    },
    Form {
        word: "part",
        example: "part PCA9641",
        says: "the part, or part TPT29641; once, before the first event",
        arguments: &[Argument::Part],
    },
    Form {
        word: "command",
        example: "command 0 03",
        says: "COMMAND of controller 0 with 03h, which opens register 3, RT",
        arguments: &[Controller, Argument::Register],
    },
    Form {
        word: "write",
        example: "write 0 50ms",
        says: "WRITE of 50, in hex 32h, for a byte of RT",
        arguments: &[Controller, Byte],
    },
    Form {
        word: "read",
        example: "read 0",
        says: "READ of controller 0",
        arguments: &[Controller],
    },
    Form {
        word: "stop",
        example: "stop 0",
        says: "STOP of controller 0",
        arguments: &[Controller],
    },
    Form {
        word: "pair",
        example: "pair 01 81",
        says: "PAIR: 01h of controller 0 and 81h of controller 1, both write at once",
        arguments: &[Byte, Byte],
    },
    Form {
        word: "lines",
        example: "lines 1 0 1",
        says: "LINES: SCL, SDA and INT_IN",
        arguments: &[Level, Level, Level],
    },
    Form {
        word: "tick",
        example: "tick 50",
        says: "fifty TICKs of 1 ms; tick alone is one",
        arguments: &[Count],
    },
    Form {
        word: "pulse",
        example: "pulse 0",
        says: "PULSE with this level of SDA",
        arguments: &[Level],
    },
    Form { word: "reset", example: "reset", says: "RESET", arguments: &[] },
    Form {
        word: "general",
        example: "general 0 06",
        says: "GENERAL CALL of controller 0 with 06h",
        arguments: &[Controller, GeneralCall],
    },
    Form {
        word: "raw",
        example: "raw FF 00 00 00",
        says: "four bytes as they are",
        arguments: &[Byte, Byte, Byte, Byte],
    },
];

#[cfg(test)]
mod tests {
    use super::{Argument, FORMS};
    use crate::script::read_script;

    /// A script of the head and one line can be read, and with each choice in each place too.
    #[test]
    fn every_example_is_a_line() {
        let read = |line: &str| {
            let head = if line.starts_with("pins") { "" } else { "pins 0 0 0 1\n" };
            let part = if line.starts_with("part") { "" } else { "part PCA9641\n" };
            let text = match line.starts_with('p') && (head.is_empty() || part.is_empty()) {
                true => format!("{line}\n{head}{part}"),
                false => format!("{head}{part}{line}\n"),
            };
            read_script(text.as_bytes()).unwrap_or_else(|unread| panic!("{line}: {unread}"))
        };
        for form in FORMS {
            let words: Vec<&str> = form.example.split(' ').collect();
            assert_eq!((words[0], words.len() - 1), (form.word, form.arguments.len()));
            read(form.example);
            for (place, argument) in form.arguments.iter().enumerate() {
                for (put, _) in argument.choices() {
                    let mut words = words.clone();
                    words[place + 1] = &put;
                    read(&words.join(" "));
                }
            }
        }
        assert!(Argument::Byte.choices().is_empty());
    }
}
