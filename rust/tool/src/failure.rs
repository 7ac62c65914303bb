//! Why the tool stops, and its exit code.

use std::error::Error;
use std::process::ExitCode;
use std::{fmt, io};

use crate::telling::complain;

/// What kept a command from being done. The text is for a person.
#[derive(Debug, PartialEq, Eq)]
pub enum Failure {
    /// The trace, the script, the capture or an order sheet is refused.
    Refused(String),
    /// The tool was used wrongly.
    Wrong(String),
    /// A file cannot be read or written.
    File(FileError),
    /// Some of many files are refused or cannot be read. Each was told already.
    OfMany { refused: bool },
    /// A bundle is not released. The verdict was told already, with its reasons.
    NotReleased,
    /// Two runs are not alike. Where, was told already.
    NotAlike,
    /// Nobody reads the output any more.
    Closed,
}

impl Failure {
    /// A file of this name, as it can be shown, cannot be read.
    pub fn unread(name: impl Into<String>, source: io::Error) -> Failure {
        Failure::File(FileError { name: name.into(), doing: Doing::Reading, source })
    }

    /// The same where it cannot be written.
    pub fn unwritten(name: impl Into<String>, source: io::Error) -> Failure {
        Failure::File(FileError { name: name.into(), doing: Doing::Writing, source })
    }

    /// Says it on standard error and gives the exit code.
    pub fn tell(&self) -> ExitCode {
        self.say();
        ExitCode::from(self.code())
    }

    /// Says it on standard error, if it was not told already.
    pub fn say(&self) {
        if !self.is_told() {
            complain(&self.to_string());
        }
    }

    /// What it says; nothing where that was told already.
    pub fn text(&self) -> String {
        if self.is_told() {
            String::new()
        } else {
            self.to_string()
        }
    }

    fn is_told(&self) -> bool {
        !matches!(self, Failure::Refused(_) | Failure::Wrong(_) | Failure::File(_))
    }

    /// The exit code that it ends the tool with.
    pub fn code(&self) -> u8 {
        match self {
            Failure::Closed => 0,
            Failure::Refused(_) | Failure::NotReleased | Failure::NotAlike => 1,
            Failure::OfMany { refused: true } => 1,
            Failure::Wrong(_) | Failure::File(_) | Failure::OfMany { refused: false } => 2,
        }
    }
}

impl fmt::Display for Failure {
    fn fmt(&self, f: &mut fmt::Formatter) -> fmt::Result {
        match self {
            Failure::Refused(text) | Failure::Wrong(text) => f.write_str(text),
            Failure::File(error) => error.fmt(f),
            Failure::OfMany { refused: true } => f.write_str("some of the files are refused"),
            Failure::OfMany { refused: false } => f.write_str("some of the files cannot be read"),
            Failure::NotReleased => f.write_str("the bundle is not released"),
            Failure::NotAlike => f.write_str("the two are not alike"),
            Failure::Closed => f.write_str("nobody reads the output any more"),
        }
    }
}

impl Error for Failure {
    fn source(&self) -> Option<&(dyn Error + 'static)> {
        match self {
            Failure::File(error) => error.source(),
            _ => None,
        }
    }
}

/// A file, a folder or a stream that cannot be read or written; the system's error says why.
#[derive(Debug)]
pub struct FileError {
    name: String,
    doing: Doing,
    source: io::Error,
}

#[derive(Clone, Copy, Debug)]
enum Doing {
    Reading,
    Writing,
}

impl fmt::Display for FileError {
    fn fmt(&self, f: &mut fmt::Formatter) -> fmt::Result {
        let done = match self.doing {
            Doing::Reading => "read",
            Doing::Writing => "written",
        };
        write!(f, "{} cannot be {done}: {}", self.name, self.source)
    }
}

/// Two are equal if they say the same; the system's errors cannot be compared.
impl PartialEq for FileError {
    fn eq(&self, other: &FileError) -> bool {
        self.to_string() == other.to_string()
    }
}

impl Eq for FileError {}

impl Error for FileError {
    fn source(&self) -> Option<&(dyn Error + 'static)> {
        Some(&self.source)
    }
}
