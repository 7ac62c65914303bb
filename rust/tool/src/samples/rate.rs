//! Samples a second, and the time of a sample.

use std::error::Error;
use std::fmt::{self, Write};

/// A rate, as people write it: 1M, 24MHz, 12.5 MHz, 500k, 1000000.
pub fn read_rate(text: &str) -> Option<u64> {
    let text = text.trim().to_ascii_lowercase();
    let text = text.strip_suffix("hz").unwrap_or(&text).trim_end();
    let (number, zeros) = match text.strip_suffix(['k', 'm', 'g']) {
        None => (text, 0),
        Some(number) => {
            let zeros = if text.ends_with('k') { 3 } else { 6 };
            (number.trim_end(), zeros + if text.ends_with('g') { 3 } else { 0 })
        }
    };
    scaled(number, zeros).and_then(|rate| u64::try_from(rate).ok()).filter(|rate| *rate > 0)
}

/// A decimal number times a power of ten, if that is whole.
fn scaled(text: &str, zeros: usize) -> Option<u128> {
    let (whole, part) = text.split_once('.').unwrap_or((text, ""));
    let part = part.trim_end_matches('0');
    if whole.is_empty() || part.len() > zeros || whole.len() + zeros > 30 {
        return None;
    }
    let digits: String = [whole, part, &"0".repeat(zeros - part.len())].concat();
    digits.bytes().all(|digit| digit.is_ascii_digit()).then(|| digits.parse().ok()).flatten()
}

/// A rate at which a millisecond is no whole number of samples.
#[derive(Clone, Copy, Debug, PartialEq, Eq)]
pub struct Uneven {
    /// Samples a second.
    pub rate: u64,
}

impl fmt::Display for Uneven {
    fn fmt(&self, f: &mut fmt::Formatter) -> fmt::Result {
        write!(
            f,
            "at {} a millisecond is no whole number of samples, and a TICK is one: the rate is to be a \
             multiple of 1 kHz, up to 4 THz",
            in_words(self.rate)
        )
    }
}

impl Error for Uneven {}

/// The samples of a millisecond, which is a TICK.
pub fn samples_of_tick(rate: u64) -> Result<u32, Uneven> {
    let every = u32::try_from(rate / 1000).ok().filter(|_| rate.is_multiple_of(1000));
    every.filter(|every| *every > 0).ok_or(Uneven { rate })
}

/// A rate in the largest unit in which it is whole.
pub fn in_words(rate: u64) -> String {
    let units = [(1_000_000_000, "GHz"), (1_000_000, "MHz"), (1000, "kHz")];
    let fits = |(size, _): &&(u64, &str)| rate > 0 && rate.is_multiple_of(*size);
    match units.iter().find(fits) {
        Some((size, unit)) => format!("{} {unit}", rate / size),
        None => format!("{rate} Hz"),
    }
}

/// The time of a sample in seconds, from the first one, to the microsecond.
pub fn time_of(sample: u64, rate: u64) -> String {
    let micros = micros_of(sample, rate);
    let mut text = String::new();
    // Text takes all that is written to it.
    let _ = write!(text, "{}.{:06} s", micros / 1_000_000, micros % 1_000_000);
    text
}

/// The same in microseconds.
pub fn micros_of(sample: u64, rate: u64) -> u64 {
    let micros = u128::from(sample) * 1_000_000 / u128::from(rate.max(1));
    u64::try_from(micros).unwrap_or(u64::MAX)
}

/// A time in attoseconds, out of a decimal number with an exponent or without, in units of so many of
/// ten's negative powers of a second: `1.5e-6` of seconds, `12.5` of 6 for microseconds.
pub fn attoseconds(text: &str, below_second: i32) -> Option<i128> {
    let (text, negative) = match text.strip_prefix('-') {
        Some(rest) => (rest, true),
        None => (text.strip_prefix('+').unwrap_or(text), false),
    };
    let (number, exponent) = match text.split_once(['e', 'E']) {
        Some((number, exponent)) => (number, exponent.parse::<i32>().ok()?),
        None => (text, 0),
    };
    let (whole, part) = number.split_once('.').unwrap_or((number, ""));
    let digits = [whole, part].concat();
    let sane = !digits.is_empty() && digits.len() <= 30 && exponent.abs() <= 30;
    if !sane || !digits.bytes().all(|digit| digit.is_ascii_digit()) {
        return None;
    }
    let value: i128 = digits.parse().ok()?;
    let places = 18 - below_second + exponent - part.len() as i32;
    let power = |places: u32| 10i128.checked_pow(places);
    let value = match places {
        0.. => value.checked_mul(power(places as u32)?)?,
        // What is below an attosecond is cut off.
        _ => power(places.unsigned_abs()).map_or(0, |size| value / size),
    };
    Some(if negative { -value } else { value })
}

/// The number of the sample that stands nearest to a time after the first one.
pub fn sample_at(attos: i128, rate: u64) -> Option<u64> {
    const SECOND: i128 = 1_000_000_000_000_000_000;
    let (seconds, rest) = (attos.checked_div_euclid(SECOND)?, attos.rem_euclid(SECOND));
    let whole = seconds.checked_mul(rate.into())?;
    let part = (rest.checked_mul(rate.into())? + SECOND / 2) / SECOND;
    u64::try_from(whole + part).ok()
}
