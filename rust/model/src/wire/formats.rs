//! A capture as field engineers have it: raw bytes, VCD and CSV. The names are those of the lines;
//! the downstream ones may be left out.

use std::fmt::Write;

/// The names of bits 0 to 6 of a sample.
pub const NAMES: [&str; 7] = ["scl0", "sda0", "scl1", "sda1", "scl", "sda", "int_in"];

/// One byte a sample, with nothing around them.
pub fn raw(samples: &[u8]) -> Vec<u8> {
    samples.to_vec()
}

/// Waveforms (VCD) with the first so many lines. One sample is a whole number of the units of time
/// where there is such a unit; else the times are cut to whole picoseconds. The last time is that of the
/// end, so that as many samples come back.
pub fn vcd(samples: &[u8], lines: usize, samples_per_tick: u64) -> String {
    let names = &NAMES[..lines];
    let (unit, of_tick) = unit_for(samples_per_tick);
    let mut text = format!("$timescale 1 {unit} $end\n$scope module bus $end\n");
    for (place, name) in names.iter().enumerate() {
        writeln!(text, "$var wire 1 {} {name} $end", code(place)).expect("text takes all");
    }
    text.push_str("$upscope $end\n$enddefinitions $end\n");
    let mut before = None;
    for (at, &sample) in samples.iter().enumerate() {
        let moved = |place: &usize| before.is_none_or(|was: u8| (was ^ sample) >> place & 1 == 1);
        let changes: Vec<usize> = (0..names.len()).filter(moved).collect();
        before = Some(sample);
        if changes.is_empty() {
            continue;
        }
        writeln!(text, "#{}", at as u64 * of_tick / samples_per_tick).expect("text takes all");
        for place in changes {
            writeln!(text, "{}{}", sample >> place & 1, code(place)).expect("text takes all");
        }
    }
    let end = samples.len() as u64 * of_tick / samples_per_tick;
    writeln!(text, "#{end}").expect("text takes all");
    text
}

/// The mark of a line in a VCD.
fn code(place: usize) -> char {
    char::from(b'!' + place as u8)
}

/// The greatest unit of which a sample is a whole number, and how many of it a tick has.
fn unit_for(samples_per_tick: u64) -> (&'static str, u64) {
    let units = [("us", 1_000), ("ns", 1_000_000), ("ps", 1_000_000_000)];
    let whole = |(_, of_tick): &&(&str, u64)| of_tick % samples_per_tick == 0;
    *units.iter().find(whole).unwrap_or(&units[2])
}

/// Comma-separated values: a header of names, and a row a sample. The columns are bits of a sample, in
/// any order.
pub fn csv(samples: &[u8], columns: &[usize]) -> String {
    let names: Vec<&str> = columns.iter().map(|place| NAMES[*place]).collect();
    let mut text = names.join(",") + "\n";
    for sample in samples {
        let levels: Vec<&str> =
            columns.iter().map(|place| if sample >> place & 1 == 1 { "1" } else { "0" }).collect();
        text.push_str(&levels.join(","));
        text.push('\n');
    }
    text
}
