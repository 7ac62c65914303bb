//! Totals in a file, so that traces can be counted on several machines and the totals joined.
//!
//! The text has a head, a line for each of the 17 numbers with its name, in their order, and an end, by
//! which a file that was cut on its way is known. What the library proves of totals is held to what is
//! read: a number that was changed by hand or by a disk is refused where that shows it.

use std::error::Error;
use std::fmt;

use gunwaleish::{Master, Totals, MOST_TRACES, TOTAL_COUNT};

/// The first line, with the number of this form.
pub const HEAD: &str = "gunwaleish totals 1";
const END: &str = "end";

/// The longest such file is far shorter.
pub const MOST_KEPT: usize = 4096;

/// The 17 numbers by name, in their order.
pub const NAMES: [&str; TOTAL_COUNT] = [
    "traces",
    "ticks",
    "owned0",
    "owned1",
    "unowned",
    "connected0",
    "connected1",
    "waited0",
    "waited1",
    "longest0",
    "longest1",
    "refused3",
    "refused5",
    "refused6",
    "refused7",
    "refused8",
    "refused10",
];

/// The numbers with which a trace is refused here.
pub const REFUSALS: [u8; 6] = [3, 5, 6, 7, 8, 10];

/// The totals as text.
pub fn write(totals: &Totals) -> String {
    let line = |(name, number): (&&str, &u64)| format!("{name} {number}\n");
    let lines: String = NAMES.iter().zip(totals.numbers()).map(line).collect();
    format!("{HEAD}\n{lines}{END}\n")
}

/// Why a text has no totals. It is told with the line, where it is about one.
#[derive(Clone, Copy, Debug, PartialEq, Eq)]
pub enum Unkept {
    /// The text ends before this line.
    EndsBefore(&'static str),
    /// The first line names another version of this form.
    OtherVersion,
    /// The first line is another.
    NoHead,
    /// A number of this name was expected on this line.
    NoNumber { line: usize, name: &'static str },
    /// The last line was expected here.
    NoEnd { line: usize },
    /// There are lines after the last one.
    AfterEnd { line: usize },
    /// No traces have such totals.
    NoTotals(&'static str),
}

impl fmt::Display for Unkept {
    fn fmt(&self, f: &mut fmt::Formatter) -> fmt::Result {
        match self {
            Unkept::EndsBefore(expected) => write!(f, "it ends before the line {expected}"),
            Unkept::OtherVersion => {
                write!(f, "line 1: it is of another version; expected {HEAD}")
            }
            Unkept::NoHead => write!(f, "it does not begin with the line {HEAD}"),
            Unkept::NoNumber { line, name } => {
                write!(f, "line {line}: expected {name} and a number")
            }
            Unkept::NoEnd { line } => write!(f, "line {line}: expected {END}"),
            Unkept::AfterEnd { line } => write!(f, "line {line}: there are lines after {END}"),
            Unkept::NoTotals(why) => write!(f, "these are no totals: {why}"),
        }
    }
}

impl Error for Unkept {}

/// The totals of a text, or what is wrong with it and on which line.
pub fn read(text: &[u8]) -> Result<Totals, Unkept> {
    let text = String::from_utf8_lossy(text);
    let mut lines = text.lines().map(str::trim_end).zip(1..);
    let mut next = |expected| lines.next().ok_or(Unkept::EndsBefore(expected));
    match next(HEAD)? {
        (HEAD, _) => {}
        (line, _) if line.starts_with("gunwaleish totals ") => return Err(Unkept::OtherVersion),
        _ => return Err(Unkept::NoHead),
    }
    let mut numbers = [0; TOTAL_COUNT];
    for (name, number) in NAMES.into_iter().zip(&mut numbers) {
        let (text, line) = next(name)?;
        let digits = text.strip_prefix(name).and_then(|rest| rest.strip_prefix(' '));
        let plain = digits.filter(|digits| digits.bytes().all(|byte| byte.is_ascii_digit()));
        let read = plain.and_then(|digits| digits.parse().ok());
        *number = read.ok_or(Unkept::NoNumber { line, name })?;
    }
    match (next(END)?, lines.next()) {
        ((END, _), None) => hold(Totals::from_numbers(numbers)),
        ((END, _), Some((_, line))) => Err(Unkept::AfterEnd { line }),
        ((_, line), _) => Err(Unkept::NoEnd { line }),
    }
}

/// Totals as they can be counted, or what tells that they were not.
fn hold(totals: Totals) -> Result<Totals, Unkept> {
    // Made-up numbers may be large, so they are added where nothing overflows.
    let wide = |numbers: &[u64]| numbers.iter().copied().map(u128::from).sum::<u128>();
    let [owned0, owned1] = Master::BOTH.map(|m| totals.owned(m));
    let refused = wide(&REFUSALS.map(|number| totals.refused(number)));
    let each = |so: fn(&Totals, Master) -> bool| Master::BOTH.iter().all(|&m| so(&totals, m));
    let laws = [
        (totals.traces() <= MOST_TRACES, "there are more than 65,535 traces"),
        (
            wide(&[owned0, owned1, totals.unowned()]) == u128::from(totals.ticks()),
            "owned0, owned1 and unowned do not add up to the ticks",
        ),
        (
            each(|t, m| t.connected(m) <= t.owned(m)),
            "a controller is connected longer than it owned",
        ),
        (each(|t, m| t.waited(m) <= t.ticks() - t.owned(m)), "a controller waits while it owns"),
        (each(|t, m| t.longest(m) <= t.waited(m)), "a longest wait is longer than the waits"),
        (refused <= u128::from(totals.traces()), "more traces are refused than there are"),
    ];
    match laws.into_iter().find(|(holds, _)| !holds) {
        None => Ok(totals),
        Some((_, why)) => Err(Unkept::NoTotals(why)),
    }
}
