//! From the names of a file's lines to the bits of a sample.

use std::error::Error;
use std::fmt;

/// The lines by their bits: both buses above, then the bus below.
pub const LINES: [&str; 7] = ["SCL0", "SDA0", "SCL1", "SDA1", "SCL", "SDA", "INT_IN"];
/// So many of them are above.
const ABOVE: usize = 4;

/// Where each bit of a sample comes from: the place of its name in the file, if it has one.
#[derive(Clone, Debug, PartialEq, Eq)]
pub struct Channels {
    pub places: [Option<usize>; LINES.len()],
}

impl Channels {
    /// True if a line of the bus below is there.
    pub fn below(&self) -> bool {
        self.places[ABOVE..].iter().any(Option::is_some)
    }

    /// The bits of a sample that a file gives. The others are always 1, as of a line that nobody pulls.
    pub fn bits(&self) -> u8 {
        let bit = |(bit, place): (usize, &Option<usize>)| u8::from(place.is_some()) << bit;
        self.places.iter().enumerate().map(bit).sum()
    }
}

/// What is wrong with the names of lines.
#[derive(Clone, Debug, PartialEq, Eq)]
pub enum Unfound {
    /// The words after --channels are not as many names.
    NoNames,
    /// No line has a name that was said; these there are.
    NoSuchLine { name: String, there: String },
    /// These lines are missing; those there are.
    Missing { lines: Vec<&'static str>, there: String },
    /// Several lines can be meant by one name.
    Several { name: String, there: String },
}

impl fmt::Display for Unfound {
    fn fmt(&self, f: &mut fmt::Formatter) -> fmt::Result {
        let above = LINES[..ABOVE].join(", ");
        match self {
            Unfound::NoNames => write!(
                f,
                "--channels needs the names of {above}, with commas between them, and may have {} too; - is a line \
                 that is not wired",
                LINES[ABOVE..].join(", ")
            ),
            Unfound::NoSuchLine { name, there } => {
                write!(f, "no line is called '{}'; there are {there}", name.escape_debug())
            }
            Unfound::Missing { lines, there } => write!(
                f,
                "no line is called {}; there are {there}: --channels NAME,NAME,NAME,NAME says which of them are {above}, and \
                 - which is not wired",
                lines.join(", ")
            ),
            Unfound::Several { name, there } => {
                write!(f, "several lines are called {name}: {there}; --channels says which are meant")
            }
        }
    }
}

impl Error for Unfound {}

/// The words after --channels: names with commas between them, in the order of the bits; `-` is a line
/// that is not wired.
pub fn read_names(text: &str) -> Result<Vec<Option<String>>, Unfound> {
    let names: Vec<Option<String>> = text
        .split(',')
        .map(str::trim)
        .map(|name| (name != "-").then(|| name.to_string()))
        .collect();
    let empty = names.iter().flatten().any(String::is_empty);
    match (ABOVE..=LINES.len()).contains(&names.len()) && !empty {
        true => Ok(names),
        false => Err(Unfound::NoNames),
    }
}

/// The lines of a file by the names that it has, or by those that were said; or what is wrong.
pub fn find(names: &[String], said: Option<&[Option<String>]>) -> Result<Channels, Unfound> {
    match said {
        Some(said) => named(names, said),
        None => known(names),
    }
}

fn named(names: &[String], said: &[Option<String>]) -> Result<Channels, Unfound> {
    let mut places = [None; LINES.len()];
    for (place, name) in places.iter_mut().zip(said) {
        let Some(name) = name else { continue };
        let none = || Unfound::NoSuchLine { name: name.clone(), there: listed(names) };
        *place = Some(only(names, name)?.ok_or_else(none)?);
    }
    Ok(Channels { places })
}

/// By the lines' own names; or by the numbers that sigrok and others give to channels, of which the
/// first four are the buses above.
fn known(names: &[String]) -> Result<Channels, Unfound> {
    let mut places = [None; LINES.len()];
    for (place, line) in places.iter_mut().zip(LINES) {
        *place = only(names, line)?;
    }
    if places[..ABOVE].iter().all(Option::is_none) {
        for before in ["", "D", "Channel", "Ch"] {
            let numbered = |bit: usize| only(names, &format!("{before}{bit}"));
            let mut found = [None; LINES.len()];
            for (bit, place) in found[..ABOVE].iter_mut().enumerate() {
                *place = numbered(bit)?;
            }
            if found[..ABOVE].iter().all(Option::is_some) {
                return Ok(Channels { places: found });
            }
        }
    }
    let missing: Vec<&'static str> =
        (0..ABOVE).filter(|bit| places[*bit].is_none()).map(|bit| LINES[bit]).collect();
    match missing.is_empty() {
        true => Ok(Channels { places }),
        false => Err(Unfound::Missing { lines: missing, there: listed(names) }),
    }
}

/// The place of a name, if it is there once. Letters alone and numbers count, and after a scope's name
/// the line's.
fn only(names: &[String], wanted: &str) -> Result<Option<usize>, Unfound> {
    let whole = |name: &&String| plain(name) == plain(wanted);
    let last = |name: &&String| plain(name.rsplit('.').next().unwrap_or(name)) == plain(wanted);
    let places = |fits: &dyn Fn(&&String) -> bool| -> Vec<usize> {
        names.iter().enumerate().filter(|(_, name)| fits(name)).map(|(place, _)| place).collect()
    };
    let found = match places(&whole) {
        none if none.is_empty() => places(&last),
        found => found,
    };
    match found[..] {
        [] => Ok(None),
        [place] => Ok(Some(place)),
        _ => {
            let there: Vec<String> = found.iter().map(|place| names[*place].clone()).collect();
            Err(Unfound::Several { name: wanted.to_string(), there: listed(&there) })
        }
    }
}

fn plain(name: &str) -> String {
    let kept = name.chars().filter(|letter| letter.is_alphanumeric() || *letter == '.');
    kept.flat_map(char::to_lowercase).collect()
}

/// So many names are told.
const MOST: usize = 12;

fn listed(names: &[String]) -> String {
    let shown: Vec<String> =
        names.iter().take(MOST).map(|name| name.escape_debug().to_string()).collect();
    match names.len() {
        0 => "none".to_string(),
        all if all > MOST => format!("{} and {} more", shown.join(", "), all - MOST),
        _ => shown.join(", "),
    }
}
