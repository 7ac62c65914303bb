//! Comma-separated values with a header of names: a row a sample, or a row a change with its time.

use super::channels::{find, Channels, LINES};
use super::form::Form;
use super::piece::{Head, Piece, Said, Taker, HIGH};
use super::rate::{attoseconds, read_rate};
use super::timeline::Timeline;
use super::vcd::Stop;
use crate::each::Mistake;

/// The longest line that is read.
const MOST_LINE: usize = 1 << 16;
/// Rows without times are given on in pieces of so many samples.
const FULL: usize = 1 << 14;

pub struct Csv {
    said: Said,
    line: usize,
    rest: Vec<u8>,
    /// What comments say: the names of the channels, and the rate.
    own_names: Vec<String>,
    own_rate: Option<u64>,
    /// libsigrok wrote it.
    of_sigrok: bool,
    body: Option<Body>,
}

struct Body {
    separator: u8,
    channels: Channels,
    /// The column of the time, and the unit of it as ten's negative power of a second.
    time: Option<(usize, i32)>,
    timeline: Timeline,
    /// Samples that are not given on yet, of rows without times.
    samples: Vec<u8>,
}

impl Csv {
    pub fn new(said: Said) -> Csv {
        Csv {
            said,
            line: 0,
            rest: vec![],
            own_names: vec![],
            own_rate: None,
            of_sigrok: false,
            body: None,
        }
    }

    pub fn crowded(&self) -> u64 {
        self.body.as_ref().map_or(0, |body| body.timeline.crowded)
    }

    pub fn feed(&mut self, bytes: &[u8], to: &mut dyn Taker) -> Result<(), Stop> {
        let mut bytes = bytes;
        while let Some(end) = bytes.iter().position(|&byte| byte == b'\n') {
            let (line, rest) = (&bytes[..end], &bytes[end + 1..]);
            match self.rest.is_empty() {
                true => self.take_line(line, to)?,
                false => {
                    self.rest.extend_from_slice(line);
                    let line = std::mem::take(&mut self.rest);
                    self.take_line(&line, to)?;
                }
            }
            bytes = rest;
        }
        self.rest.extend_from_slice(bytes);
        match self.rest.len() > MOST_LINE {
            true => {
                self.line += 1;
                Err(self.wrong("the line is longer than any of a capture"))
            }
            false => self.give_on(to),
        }
    }

    pub fn end(&mut self, to: &mut dyn Taker) -> Result<(), Stop> {
        if !self.rest.is_empty() {
            let line = std::mem::take(&mut self.rest);
            self.take_line(&line, to)?;
        }
        self.give_on(to)?;
        match &mut self.body {
            Some(body) => Ok(body.timeline.end(to)?),
            None => Err(self.wrong("there is no header of names")),
        }
    }

    fn give_on(&mut self, to: &mut dyn Taker) -> Result<(), Stop> {
        if let Some(body) = &mut self.body {
            if !body.samples.is_empty() {
                to.take(Piece::Samples(&body.samples))?;
                body.samples.clear();
            }
        }
        Ok(())
    }

    fn take_line(&mut self, line: &[u8], to: &mut dyn Taker) -> Result<(), Stop> {
        self.line += 1;
        let line = line.trim_ascii();
        let line = match self.line {
            1 => line.strip_prefix(b"\xEF\xBB\xBF").unwrap_or(line),
            _ => line,
        };
        if line.is_empty() {
            return Ok(());
        }
        if matches!(line[0], b';' | b'#') || line.starts_with(b"META ") {
            self.comment(&String::from_utf8_lossy(line));
            return Ok(());
        }
        match self.body {
            None => self.header(&String::from_utf8_lossy(line), to),
            Some(_) => self.row(line, to),
        }
    }

    /// What sigrok says above its rows.
    fn comment(&mut self, line: &str) {
        let text = line.trim_start_matches([';', '#', ' ']);
        self.of_sigrok |= text.contains("libsigrok");
        if let Some((_, names)) = text.split_once("): ").filter(|_| text.starts_with("Channels ("))
        {
            self.own_names = names.split(',').map(|name| name.trim().to_string()).collect();
        }
        let rate = text.strip_prefix("Samplerate:").or(text.strip_prefix("META samplerate:"));
        self.own_rate = self.own_rate.or(rate.and_then(read_rate));
    }

    fn header(&mut self, line: &str, to: &mut dyn Taker) -> Result<(), Stop> {
        let separators = [b',', b';', b'\t'];
        let count = |of: &u8| line.bytes().filter(|byte| byte == of).count();
        let separator = separators.into_iter().rev().max_by_key(count).unwrap_or(b',');
        let cells = line.split(char::from(separator));
        let mut names: Vec<String> =
            cells.map(|cell| cell.trim().trim_matches('"').trim().to_string()).collect();
        if names.iter().all(|name| matches!(name.as_str(), "0" | "1")) && self.own_names.is_empty()
        {
            return Err(self.wrong(
                "a header of names is expected, and here are levels: put the line \
                 SCL0,SDA0,SCL1,SDA1 above them",
            ));
        }
        let time = self.time_column(&names)?;
        let logic: Vec<usize> =
            (0..names.len()).filter(|place| names[*place].eq_ignore_ascii_case("logic")).collect();
        // sigrok has the units above the rows, and the names in a comment.
        if logic.len() == self.own_names.len() {
            logic
                .iter()
                .zip(&self.own_names)
                .for_each(|(place, name)| names[*place] = name.clone());
        }
        let channels = find(&names, self.said.channels.as_deref())
            .map_err(|what| self.wrong(&what.to_string()))?;
        let rate = self.said.rate.or(self.own_rate);
        to.begin(&Head { form: Form::Csv, rate, below: channels.below() })?;
        let timeline = Timeline::new(rate, HIGH);
        self.body = Some(Body { separator, channels, time, timeline, samples: vec![] });
        Ok(())
    }

    /// The column that has the time, if one has.
    fn time_column(&self, names: &[String]) -> Result<Option<(usize, i32)>, Stop> {
        for (place, name) in names.iter().enumerate() {
            let name = name.to_lowercase().replace(['µ', 'μ'], "u");
            let unit = match name.as_str() {
                "seconds" => Some(0),
                "milliseconds" => Some(3),
                "microseconds" => Some(6),
                "nanoseconds" => Some(9),
                "picoseconds" => Some(12),
                _ => None,
            };
            if let Some(unit) = unit {
                return Ok(Some((place, unit)));
            }
            let Some(after) = name.strip_prefix("time") else { continue };
            let unit = match after.trim_matches([' ', '[', ']', '(', ')', '_', '/', '-']) {
                "" if self.of_sigrok => {
                    return Err(self.wrong(
                        "sigrok's column Time has no unit here: export with -O csv:label=units:time=true, or \
                         without the time",
                    ))
                }
                "" | "s" | "sec" | "seconds" => 0,
                "ms" => 3,
                "us" => 6,
                "ns" => 9,
                "ps" => 12,
                _ => continue,
            };
            return Ok(Some((place, unit)));
        }
        Ok(None)
    }

    fn row(&mut self, line: &[u8], to: &mut dyn Taker) -> Result<(), Stop> {
        let number = self.line;
        let Some(body) = &mut self.body else { return Ok(()) };
        let mistake = |why: String| Stop::Mistake(Mistake { why, line: Some(number) });
        let Row { sample, time } = body.read(line).map_err(mistake)?;
        let Some(time) = time else {
            body.samples.push(sample);
            return match body.samples.len() >= FULL {
                true => self.give_on(to),
                false => Ok(()),
            };
        };
        match body.timeline.time(time, to)? {
            Ok(()) => {
                body.timeline.set(sample);
                Ok(())
            }
            Err(wrong) => Err(mistake(wrong.to_string())),
        }
    }

    fn wrong(&self, what: &str) -> Stop {
        Stop::Mistake(Mistake { why: what.to_string(), line: Some(self.line.max(1)) })
    }
}

/// What a row says.
struct Row {
    sample: u8,
    /// In attoseconds, if there is a column for it.
    time: Option<i128>,
}

impl Body {
    fn read(&self, line: &[u8]) -> Result<Row, String> {
        let mut row = Row { sample: HIGH, time: None };
        let mut given = 0;
        for (place, cell) in line.split(|&byte| byte == self.separator).enumerate() {
            if let Some((_, unit)) = self.time.filter(|(column, _)| *column == place) {
                row.time = Some(time_of(cell, unit)?);
            }
            let bits = self.channels.places.iter().enumerate();
            for (bit, _) in bits.filter(|(_, column)| **column == Some(place)) {
                given |= 1 << bit;
                if !level_of(cell, LINES[bit])? {
                    row.sample &= !(1 << bit);
                }
            }
        }
        match given == self.channels.bits() {
            true => Ok(row),
            false => Err("the row has fewer cells than the header has names".to_string()),
        }
    }
}

fn time_of(cell: &[u8], unit: i32) -> Result<i128, String> {
    let text = String::from_utf8_lossy(cell);
    let text = text.trim().trim_matches('"').trim();
    attoseconds(text, unit)
        .ok_or_else(|| format!("'{}' is no time, expected a number", text.escape_debug()))
}

/// The level in a cell of this line.
fn level_of(cell: &[u8], line: &str) -> Result<bool, String> {
    let level = match cell {
        b"0" | b"1" => cell,
        _ => {
            let cell = cell.trim_ascii();
            let quoted = cell.strip_prefix(b"\"").and_then(|rest| rest.strip_suffix(b"\""));
            quoted.unwrap_or(cell).trim_ascii()
        }
    };
    match level {
        b"0" => Ok(false),
        b"1" => Ok(true),
        _ => {
            let cell = String::from_utf8_lossy(cell);
            Err(format!("{line} is '{}', expected 0 or 1", cell.trim().escape_debug()))
        }
    }
}
