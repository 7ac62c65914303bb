//! Waveforms (VCD), read word by word as they come.

use std::error::Error;
use std::fmt;

use super::channels::{find, LINES};
use super::form::Form;
use super::piece::{Head, Said, Taker, HIGH};
use super::rate::read_rate;
use super::timeline::Timeline;
use crate::each::Mistake;
use crate::failure::Failure;

/// The longest word that is read. Names and numbers are shorter.
const MOST_WORD: usize = 4096;

/// What the words up to the next `$end` are.
#[derive(Clone, Copy, Debug, PartialEq, Eq)]
enum Part {
    /// None: values and times.
    Values,
    Timescale,
    Scope,
    Var,
    Comment,
    /// Something that says nothing here.
    Other,
}

/// A line of the file: its name with those of its scopes, and the mark that its values have.
#[derive(Clone, Debug)]
struct Var {
    name: String,
    mark: Vec<u8>,
    single: bool,
}

pub struct Vcd {
    said: Said,
    line: usize,
    word: Vec<u8>,
    part: Part,
    /// The words of the part so far.
    words: Vec<String>,
    scopes: Vec<String>,
    vars: Vec<Var>,
    /// Attoseconds of the unit of time.
    unit: Option<i128>,
    own_rate: Option<u64>,
    /// A vector or number was read, and its mark comes next.
    skips_mark: bool,
    body: Option<Body>,
}

/// What is needed for the values.
struct Body {
    /// The bits of a sample by their marks.
    bits: Vec<(Vec<u8>, u8, &'static str)>,
    timeline: Timeline,
}

/// Why reading stops.
#[derive(Debug)]
pub enum Stop {
    /// Something is wrong in the file.
    Mistake(Mistake),
    /// Who takes its samples takes no more.
    Failure(Failure),
}

impl fmt::Display for Stop {
    fn fmt(&self, f: &mut fmt::Formatter) -> fmt::Result {
        match self {
            Stop::Mistake(mistake) => mistake.fmt(f),
            Stop::Failure(failure) => failure.fmt(f),
        }
    }
}

impl Error for Stop {
    fn source(&self) -> Option<&(dyn Error + 'static)> {
        match self {
            Stop::Mistake(mistake) => Some(mistake),
            Stop::Failure(failure) => Some(failure),
        }
    }
}

impl From<Failure> for Stop {
    fn from(failure: Failure) -> Stop {
        Stop::Failure(failure)
    }
}

impl Vcd {
    pub fn new(said: Said) -> Vcd {
        Vcd {
            said,
            line: 1,
            word: vec![],
            part: Part::Values,
            words: vec![],
            scopes: vec![],
            vars: vec![],
            unit: None,
            own_rate: None,
            skips_mark: false,
            body: None,
        }
    }

    /// Changes that were lost, since another stands in the same sample.
    pub fn crowded(&self) -> u64 {
        self.body.as_ref().map_or(0, |body| body.timeline.crowded)
    }

    pub fn feed(&mut self, bytes: &[u8], to: &mut dyn Taker) -> Result<(), Stop> {
        for &byte in bytes {
            if !byte.is_ascii_whitespace() {
                self.word.push(byte);
                if self.word.len() > MOST_WORD {
                    return Err(self.wrong("a word is longer than any of a VCD file"));
                }
                continue;
            }
            self.end_word(to)?;
            self.line += usize::from(byte == b'\n');
        }
        Ok(())
    }

    pub fn end(&mut self, to: &mut dyn Taker) -> Result<(), Stop> {
        self.end_word(to)?;
        match &mut self.body {
            Some(body) => Ok(body.timeline.end(to)?),
            None => Err(self.wrong("the file ends before $enddefinitions, so there are no values")),
        }
    }

    fn end_word(&mut self, to: &mut dyn Taker) -> Result<(), Stop> {
        if self.word.is_empty() {
            return Ok(());
        }
        let word = std::mem::take(&mut self.word);
        let done = self.take_word(&word, to);
        // Its room is used again.
        self.word = word;
        self.word.clear();
        done
    }

    fn take_word(&mut self, word: &[u8], to: &mut dyn Taker) -> Result<(), Stop> {
        match self.part {
            Part::Values if self.skips_mark => {
                self.skips_mark = false;
                Ok(())
            }
            Part::Values => match word[0] {
                b'$' => self.keyword(word, to),
                b'#' => self.time(&word[1..], to),
                _ => self.value(word),
            },
            _ if word == b"$end" => self.end_part(),
            // What says nothing is not kept, however long it is.
            Part::Other => Ok(()),
            _ => {
                if self.words.len() < 64 {
                    self.words.push(String::from_utf8_lossy(word).into_owned());
                }
                Ok(())
            }
        }
    }

    fn keyword(&mut self, word: &[u8], to: &mut dyn Taker) -> Result<(), Stop> {
        self.words.clear();
        self.part = match word {
            b"$timescale" => Part::Timescale,
            b"$scope" => Part::Scope,
            b"$var" => Part::Var,
            b"$comment" => Part::Comment,
            b"$upscope" => {
                self.scopes.pop();
                Part::Other
            }
            b"$enddefinitions" => {
                self.begin(to)?;
                Part::Other
            }
            // Between these and their $end stand values.
            b"$dumpvars" | b"$dumpall" | b"$dumpon" | b"$dumpoff" | b"$end" => Part::Values,
            _ => Part::Other,
        };
        Ok(())
    }

    fn end_part(&mut self) -> Result<(), Stop> {
        let part = std::mem::replace(&mut self.part, Part::Values);
        let words = std::mem::take(&mut self.words);
        match part {
            Part::Timescale => {
                let text = words.concat();
                self.unit = Some(unit_of(&text).ok_or_else(|| {
                    self.wrong(&format!(
                        "'{}' is no $timescale, expected a number of 1, 10 or 100 and s, ms, us, ns, ps or fs",
                        text.escape_debug()
                    ))
                })?);
            }
            Part::Scope => self.scopes.push(words.last().cloned().unwrap_or_default()),
            Part::Var => match &words[..] {
                [_, size, mark, name, ..] => {
                    let name = [&self.scopes[..], std::slice::from_ref(name)].concat().join(".");
                    let mark = mark.clone().into_bytes();
                    self.vars.push(Var { name, mark, single: size == "1" });
                }
                _ => return Err(self.wrong("a $var needs its kind, size, mark and name")),
            },
            // sigrok says the rate so: "Acquisition with 4/4 channels at 1 MHz".
            Part::Comment => {
                let text = words.join(" ");
                let rate = text.rsplit_once(" at ").and_then(|(_, rate)| read_rate(rate));
                self.own_rate = self.own_rate.or(rate);
            }
            Part::Values | Part::Other => {}
        }
        Ok(())
    }

    /// The names are known: whose values are read, and what the samples are.
    fn begin(&mut self, to: &mut dyn Taker) -> Result<(), Stop> {
        let single: Vec<&Var> = self.vars.iter().filter(|var| var.single).collect();
        let names: Vec<String> = single.iter().map(|var| var.name.clone()).collect();
        let channels = find(&names, self.said.channels.as_deref())
            .map_err(|what| self.wrong(&what.to_string()))?;
        let rate = self.said.rate.or(self.own_rate).or(self.unit.and_then(whole_rate));
        let marked = |(bit, place): (usize, &Option<usize>)| {
            place.map(|place| (single[place].mark.clone(), 1u8 << bit, LINES[bit]))
        };
        let bits = channels.places.iter().enumerate().filter_map(marked).collect();
        to.begin(&Head { form: Form::Vcd, rate, below: channels.below() })?;
        self.body = Some(Body { bits, timeline: Timeline::new(rate, HIGH) });
        Ok(())
    }

    fn time(&mut self, digits: &[u8], to: &mut dyn Taker) -> Result<(), Stop> {
        let number = std::str::from_utf8(digits).ok().and_then(|text| text.parse::<i128>().ok());
        let time = number.and_then(|number| number.checked_mul(self.unit.unwrap_or(NANOSECOND)));
        let Some(time) = time else {
            return Err(self.wrong("after # a time is expected, a whole number"));
        };
        let Some(body) = &mut self.body else {
            return Err(self.wrong("a time stands before $enddefinitions"));
        };
        match body.timeline.time(time, to)? {
            Ok(()) => Ok(()),
            Err(wrong) => Err(self.wrong(&wrong.to_string())),
        }
    }

    fn value(&mut self, word: &[u8]) -> Result<(), Stop> {
        let Some(body) = &mut self.body else {
            // sigrok-cli says this in between, where the rate was said to it.
            return match word {
                b"META" | b"samplerate:" => Ok(()),
                _ if word.iter().all(u8::is_ascii_digit) => Ok(()),
                _ => Err(self.wrong("a value stands before $enddefinitions")),
            };
        };
        let (value, mark) = (word[0], &word[1..]);
        if matches!(value, b'b' | b'B' | b'r' | b'R' | b's') {
            self.skips_mark = true;
            return Ok(());
        }
        let of = body.bits.iter().find(|(own, ..)| own == mark);
        let level = body.timeline.level();
        match (value, of) {
            (b'0', Some((_, bit, _))) => body.timeline.set(level & !bit),
            // A line of these buses that nobody pulls is high.
            (b'1' | b'z' | b'Z', Some((_, bit, _))) => body.timeline.set(level | bit),
            (b'x' | b'X', Some((_, _, line))) => {
                let line = *line;
                return Err(self.wrong(&format!(
                    "{line} is x, and a sample is 0 or 1: export it as an analyser took it"
                )));
            }
            (b'0' | b'1' | b'x' | b'X' | b'z' | b'Z', None) => {}
            _ => {
                return Err(self.wrong(&format!(
                    "'{}' is no value: expected 0 or 1 and a mark",
                    String::from_utf8_lossy(word).escape_debug()
                )))
            }
        }
        Ok(())
    }

    fn wrong(&self, what: &str) -> Stop {
        Stop::Mistake(Mistake { why: what.to_string(), line: Some(self.line) })
    }
}

const NANOSECOND: i128 = 1_000_000_000;

/// The attoseconds of a unit such as `10us`.
fn unit_of(text: &str) -> Option<i128> {
    let letters = text.find(|letter: char| !letter.is_ascii_digit())?;
    let (number, unit) = text.split_at(letters);
    let size = match unit {
        "s" => 18,
        "ms" => 15,
        "us" => 12,
        "ns" => 9,
        "ps" => 6,
        "fs" => 3,
        _ => return None,
    };
    let number: i128 = number.parse().ok().filter(|number| [1, 10, 100].contains(number))?;
    Some(number * 10i128.pow(size))
}

/// A sample a unit.
fn whole_rate(unit: i128) -> Option<u64> {
    let second = 10i128.pow(18);
    u64::try_from(second / unit).ok().filter(|rate| *rate > 0)
}
