//! Calls that are few enough to try them all.

use model::capture_damage::about_bytes;
use model::pen::samples_of;
use model::read_trace;
use model::stored::stored_traces;
use model::traces::old_trace_of;

use crate::check::{check_address_of, check_pins_of};
use crate::figures::Figures;

/// Every byte string of up to two bytes, run, listed, and given to the converter.
pub fn short_strings(figures: &mut Figures) {
    let mut strings = vec![vec![]];
    strings.extend((0..=255).map(|a| vec![a]));
    strings.extend((0..=65535u16).map(|ab| ab.to_le_bytes().to_vec()));
    for bytes in strings {
        figures.run(&bytes, 16);
        figures.list(&bytes);
        figures.convert(&bytes, 16);
    }
}

/// The traces that the repository keeps as files: run, listed, and written again if accepted.
pub fn kept_traces(figures: &mut Figures) {
    for trace in stored_traces() {
        figures.run(&trace, trace.len());
        figures.list(&trace);
        if read_trace(&trace).is_ok() {
            figures.write_again(&trace);
        }
    }
}

/// Every third section of up to two bytes, and of three if it is about a good one, after no event
/// and after one: run, and given to the converter.
pub fn third_sections(figures: &mut Figures) {
    let mut sections = vec![vec![]];
    sections.extend((0..=255).map(|a| vec![a]));
    sections.extend((0..=65535u16).map(|ab| ab.to_le_bytes().to_vec()));
    sections.extend((0..=255).flat_map(|c| [vec![1, 0, c], vec![1, 1, c], vec![1, 2, c]]));
    for section in sections {
        for events in [&[][..], &[[2, 0, 0, 0]]] {
            let bytes = [old_trace_of([0; 4], events), section.clone()].concat();
            figures.run(&bytes, 4);
            figures.convert(&bytes, 16);
        }
    }
}

/// Every number of a kind, with room and without.
pub fn all_kinds(figures: &mut Figures) {
    for kind in 0..=255 {
        figures.write([0; 4], kind, &[2, 0, 0, 0], 13);
        figures.write([0; 4], kind, &[2, 0, 0, 0], 12);
    }
}

/// The codes 0 to 5 and 255 on all four pins, and every code on one pin with good ones on the
/// others.
pub fn all_pins(figures: &mut Figures) {
    let codes = [0, 1, 2, 3, 4, 5, 255];
    for place in 0..7usize.pow(4) {
        let code = |pin: u32| codes[place / 7usize.pow(pin) % 7];
        let pins = [code(3), code(2), code(1), code(0)];
        figures.note(check_address_of(pins));
        figures.write(pins, 0, &[], 9);
    }
    for others in 0..=255u8 {
        let good = [others >> 6, (others >> 4) & 3, (others >> 2) & 3, others & 3];
        for pin in 0..4 {
            for code in 0..=255 {
                let mut pins = good;
                pins[pin] = code;
                figures.note(check_address_of(pins));
            }
        }
    }
}

pub fn all_addresses(figures: &mut Figures) {
    (0..=255).for_each(|address| figures.note(check_pins_of(address)));
}

/// Captures about the bounds of bytes, for the first address, the last and one between; and one of
/// them for every address there is or is not.
pub fn captures_about_bytes(figures: &mut Figures) {
    for address in [0x08, 0x55, 0x77] {
        about_bytes(address).iter().for_each(|samples| figures.import(samples, address, 64));
    }
    let samples = &about_bytes(0x08)[0];
    (0..=255).for_each(|address| figures.import(samples, address, 64));
}

/// Every capture of up to four samples, and every one of eight samples in which one bus is free. The
/// shortest with a START and two clocks has six.
pub fn short_captures(figures: &mut Figures) {
    for length in 0..=4 {
        for code in 0..16usize.pow(length) {
            let samples: Vec<u8> = (0..length).map(|at| (code >> (4 * at) & 15) as u8).collect();
            figures.import(&samples, 0x70, 8);
        }
    }
    for code in 0..4usize.pow(8) {
        let bus: Vec<u8> = (0..8).map(|at| (code >> (2 * at) & 3) as u8).collect();
        figures.import(&samples_of([&bus, &[3]]), 0x70, 8);
        figures.import(&samples_of([&[3], &bus]), 0x70, 8);
    }
}
