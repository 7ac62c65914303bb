//! A capture read as it comes, whatever its form.

use std::fs::File;
use std::io::{self, ErrorKind, Read};
use std::path::Path;

use super::csv::Csv;
use super::form::{form_of, Form};
use super::piece::{Head, Piece, Said, Taker};
use super::rate::read_rate;
use super::session;
use super::vcd::{Stop, Vcd};
use crate::failure::Failure;
use crate::files::{hint_at_terminal, is_standard, name_of};

/// The bytes of a capture, in pieces of any length, to samples.
pub struct Reader {
    name: String,
    said: Said,
    state: State,
}

enum State {
    /// The first bytes, of which it is not seen yet what they are.
    Undecided(Vec<u8>),
    Raw,
    Vcd(Box<Vcd>),
    Csv(Box<Csv>),
}

impl Reader {
    /// Of a file that goes by this name in messages.
    pub fn new(name: &str, said: Said) -> Reader {
        Reader { name: name.to_string(), said, state: State::Undecided(vec![]) }
    }

    pub fn feed(&mut self, bytes: &[u8], to: &mut dyn Taker) -> Result<(), Failure> {
        match &mut self.state {
            State::Undecided(start) => {
                start.extend_from_slice(bytes);
                match form_of(start, false) {
                    Some(form) => self.decide(form, to),
                    None => Ok(()),
                }
            }
            State::Raw => match bytes.is_empty() {
                true => Ok(()),
                false => to.take(Piece::Samples(bytes)),
            },
            State::Vcd(vcd) => stopped(&self.name, vcd.feed(bytes, to)),
            State::Csv(csv) => stopped(&self.name, csv.feed(bytes, to)),
        }
    }

    pub fn end(&mut self, to: &mut dyn Taker) -> Result<(), Failure> {
        if let State::Undecided(start) = &self.state {
            let form = form_of(start, true).unwrap_or(Form::Raw);
            self.decide(form, to)?;
        }
        match &mut self.state {
            State::Vcd(vcd) => stopped(&self.name, vcd.end(to)),
            State::Csv(csv) => stopped(&self.name, csv.end(to)),
            State::Undecided(_) | State::Raw => Ok(()),
        }
    }

    /// Changes that were lost, since another one stands in the same sample.
    pub fn crowded(&self) -> u64 {
        match &self.state {
            State::Vcd(vcd) => vcd.crowded(),
            State::Csv(csv) => csv.crowded(),
            State::Undecided(_) | State::Raw => 0,
        }
    }

    fn decide(&mut self, form: Form, to: &mut dyn Taker) -> Result<(), Failure> {
        let State::Undecided(start) = std::mem::replace(&mut self.state, State::Raw) else {
            return Ok(());
        };
        let said = self.said.clone();
        match form {
            Form::Raw => return self.begin_raw(&start, to),
            Form::Vcd => self.state = State::Vcd(Box::new(Vcd::new(said))),
            Form::Csv => self.state = State::Csv(Box::new(Csv::new(said))),
            Form::Session => {
                return Err(Failure::Refused(format!("{}: {}", self.name, session::TOLD)))
            }
            Form::Gzip => {
                let why = "it is compressed: gunzip gives what is in it";
                return Err(Failure::Refused(format!("{}: {why}", self.name)));
            }
            Form::Utf16 => {
                let why = "it is text in UTF-16: save it as UTF-8";
                return Err(Failure::Refused(format!("{}: {why}", self.name)));
            }
        }
        self.feed(&start, to)
    }

    fn begin_raw(&mut self, start: &[u8], to: &mut dyn Taker) -> Result<(), Failure> {
        if self.said.channels.is_some() {
            return Err(Failure::Wrong(format!(
                "{} has one byte a sample and no names, so --channels says nothing of it: its bits 0 to 3 are \
                 SCL0, SDA0, SCL1 and SDA1",
                self.name
            )));
        }
        // sigrok-cli says so before its samples, where the rate was said to it.
        let (rate, samples) = match meta(start) {
            Some((rate, length)) => (Some(rate), &start[length..]),
            None => (None, start),
        };
        let rate = self.said.rate.or(rate);
        to.begin(&Head { form: Form::Raw, rate, below: false })?;
        match samples.is_empty() {
            true => Ok(()),
            false => to.take(Piece::Samples(samples)),
        }
    }
}

/// The rate that stands before the first sample, and the length of what says it.
fn meta(start: &[u8]) -> Option<(u64, usize)> {
    let rest = start.strip_prefix(b"META samplerate: ")?;
    let end = rest.iter().position(|&byte| byte == b'\n')?;
    let rate = read_rate(std::str::from_utf8(&rest[..end]).ok()?)?;
    Some((rate, start.len() - rest.len() + end + 1))
}

fn stopped(name: &str, done: Result<(), Stop>) -> Result<(), Failure> {
    done.map_err(|stop| match stop {
        Stop::Failure(failure) => failure,
        Stop::Mistake(mistake) => {
            let line = mistake.line.map_or(String::new(), |line| format!("line {line}: "));
            Failure::Refused(format!("{name}: {line}{}", mistake.why))
        }
    })
}

/// So much is read at once.
const AT_ONCE: usize = 1 << 16;

/// Reads all of it. Gives how many changes were lost, since another one stands in the same sample.
pub fn read_all(
    mut from: impl Read,
    name: &str,
    said: &Said,
    to: &mut dyn Taker,
) -> Result<u64, Failure> {
    let mut reader = Reader::new(name, said.clone());
    let mut room = vec![0; AT_ONCE];
    loop {
        match from.read(&mut room) {
            Ok(0) => break,
            Ok(length) => reader.feed(&room[..length], to)?,
            Err(error) if error.kind() == ErrorKind::Interrupted => {}
            Err(error) => return Err(Failure::unread(name, error)),
        }
    }
    reader.end(to)?;
    Ok(reader.crowded())
}

/// The same of a file or standard input; a session by way of its program.
pub fn read_path(path: &Path, said: &Said, to: &mut dyn Taker) -> Result<u64, Failure> {
    let name = name_of(path);
    if is_standard(path) {
        hint_at_terminal();
        return read_all(io::stdin().lock(), &name, said, to);
    }
    if session::is_session(path) {
        let mut session = session::open(path)?;
        let read = read_all(&mut session, &name, said, to);
        // If the program failed, what it gave is not to be judged.
        return match read {
            Ok(crowded) => session.end().map(|()| crowded),
            Err(failure) => Err(failure),
        };
    }
    let unread = |error| Failure::unread(&name, error);
    read_all(File::open(path).map_err(unread)?, &name, said, to)
}
