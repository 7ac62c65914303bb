//! firmware FOLDER TRACE...: writes calls for the program of `c/firmware`, and what this model answers to
//! each, into a folder. `image.calls` has a device's runs: the traces that are named, and random ones of
//! either kind, with registers read and quiet time. `plain.calls` has the same without quiet time and
//! without a look at the image, for a stepper that has neither, and `long.calls` more such runs.
//! `more.calls` has the rest: images that no run reaches and refused ones, shelves, order sheets and
//! straps.
//!
//! A call has six bytes, its number and five arguments; an answer eight, the low one first. What a call
//! reads and writes lies in buffers, which are put, read back and given their lengths by calls too.

use std::ops::Range;
use std::path::Path;
use std::{env, fs, io, process};

use model::image::IMAGE_LENGTH;
use model::images::{any_event, any_image};
use model::part::BOTH_KINDS;
use model::rng::Rng;
use model::sheet::Sheet;
use model::sheets::{complete_pair, damage_sheet, good_pair};
use model::shelves::{
    any_count, any_named, any_shelf, any_slots, damaged_slots, fresh_shelf, named_events,
};
use model::traces::{event_list_of, seed_of};
use model::*;

/// The run that all seeds here belong to.
const RUN: u64 = 108;
/// The numbers of the buffers, and their room in the firmware.
const IMAGE: usize = 0;
const ROW: usize = 1;
const SLOTS: usize = 2;
const BOARD: usize = 3;
const HOUSE: usize = 4;
const EVENTS: usize = 5;
const ROOM: [usize; 6] = [40, 17 * 39, 36, 20, 20, 52];

/// A list of calls with their answers. The buffers are as the calls leave them.
struct Calls {
    buffers: [Vec<u8>; 6],
    calls: Vec<u8>,
    answers: Vec<u8>,
}

impl Calls {
    fn new() -> Calls {
        let buffers = ROOM.map(|room| vec![0; room]);
        Calls { buffers, calls: vec![], answers: vec![] }
    }

    fn add(&mut self, number: u8, arguments: [u8; 5], answer: u64) {
        self.calls.push(number);
        self.calls.extend(arguments);
        self.answers.extend(answer.to_le_bytes());
    }

    /// Puts these bytes into a buffer, which then is so long.
    fn put(&mut self, buffer: usize, bytes: &[u8]) {
        for (at, byte) in (0u16..).zip(bytes) {
            let [low, high] = at.to_le_bytes();
            self.add(0, [buffer as u8, low, high, *byte, 0], 0);
        }
        let [low, high] = (bytes.len() as u16).to_le_bytes();
        self.add(2, [buffer as u8, low, high, 0, 0], 0);
        self.buffers[buffer] = bytes.to_vec();
    }

    /// Reads a buffer back.
    fn get(&mut self, buffer: usize) {
        for (at, byte) in (0u16..).zip(self.buffers[buffer].clone()) {
            let [low, high] = at.to_le_bytes();
            self.add(1, [buffer as u8, low, high, 0, 0], u64::from(byte));
        }
    }

    fn image_fresh(&mut self, kind: u8) {
        let number = image_fresh(kind, &mut self.buffers[IMAGE]);
        self.add(3, [kind, 0, 0, 0, 0], u64::from(number));
    }

    fn image_step(&mut self, event: [u8; 4]) {
        let answer = image_step(event, &mut self.buffers[IMAGE]);
        let [kind, x, y, z] = event;
        self.add(4, [kind, x, y, z, 0], u64::from(u32::from_le_bytes(answer)));
    }

    fn image_read(&mut self, master: u8, register: u8) {
        let answer = match image_read(master, register, &self.buffers[IMAGE]) {
            Ok(byte) => 256 * u64::from(byte),
            Err(number) => u64::from(number),
        };
        self.add(5, [master, register, 0, 0, 0], answer);
    }

    fn image_advance(&mut self, ticks: u32) {
        let advanced = image_advance(ticks, &mut self.buffers[IMAGE]);
        let [a, b, c, d] = ticks.to_le_bytes();
        self.add(
            6,
            [a, b, c, d, 0],
            u64::from(advanced.number) + 256 * u64::from(advanced.changing),
        );
    }

    fn shelf_fresh(&mut self) {
        let slots = self.buffers[SLOTS].clone();
        let number = shelf_fresh(&slots, &mut self.buffers[ROW]);
        self.add(7, [0; 5], u64::from(number));
    }

    fn shelf_step(&mut self, (name, event): (u8, [u8; 4])) {
        let answer = shelf_step(name, event, &mut self.buffers[ROW]);
        let [kind, x, y, z] = event;
        self.add(8, [name, kind, x, y, z], u64::from(u32::from_le_bytes(answer)));
    }

    fn shelf_show(&mut self, place: u8) {
        let answer = shelf_show(place, &self.buffers[ROW]);
        self.add(9, [place, 0, 0, 0, 0], u64::from(u32::from_le_bytes(answer)));
    }

    /// All that is asked of the two sheets.
    fn sheets(&mut self) {
        let (board, house) = (self.buffers[BOARD].clone(), self.buffers[HOUSE].clone());
        for (section, controller) in
            (0..4).flat_map(|section| (0..3).map(move |controller| (section, controller)))
        {
            let found = look_up(&board, &house, section, controller);
            let sheet =
                if found.number > 0 { 0 } else { 1 + u64::from(found.sheet == Sheet::House) };
            let packed = u64::from(found.number) + 256 * sheet + 65536 * found.offset as u64;
            self.add(10, [section, controller, 0, 0, 0], packed);
        }
        let ordered = sheet_events(&board, &house, &mut self.buffers[EVENTS]);
        self.add(11, [0; 5], u64::from(ordered.number) + 256 * ordered.events as u64);
        for (controller, kind) in [(0, 0), (0, 1), (1, 0), (1, 1), (2, 0), (0, 2)] {
            self.add(
                12,
                [controller, kind, 0, 0, 0],
                wait_of(&board, &house, controller, kind).packed(),
            );
        }
        self.get(EVENTS);
    }

    fn straps(&mut self) {
        for code in 0..=255u8 {
            let pins = [code >> 6, code >> 4 & 3, code >> 2 & 3, code & 3];
            let answer = address_of(pins).map_or(8, |address| 256 * u64::from(address));
            let [ad3, ad2, ad1, ad0] = pins;
            self.add(13, [ad3, ad2, ad1, ad0, 0], answer);
            let answer = pins_of(code).map_or(11, |pins| {
                (1..).zip(pins).map(|(place, pin)| u64::from(pin) << (8 * place)).sum()
            });
            self.add(14, [code, 0, 0, 0, 0], answer);
        }
        self.add(13, [4, 0, 0, 0, 0], 8);
    }

    /// Every register of both controllers.
    fn registers(&mut self) {
        for (master, register) in
            (0..2).flat_map(|master| (0..8).map(move |register| (master, register)))
        {
            self.image_read(master, register);
        }
    }

    fn write(&self, folder: &Path, name: &str) -> io::Result<()> {
        fs::write(folder.join(format!("{name}.calls")), &self.calls)?;
        fs::write(folder.join(format!("{name}.answers")), &self.answers)
    }
}

/// Runs of one device: the traces, then random ones of so many events. With `all`, quiet time is passed at once here and there, and the image is
/// looked at.
fn image_calls(traces: &[Vec<u8>], places: Range<u64>, length: usize, all: bool) -> Calls {
    let mut calls = Calls::new();
    calls.buffers[IMAGE].truncate(IMAGE_LENGTH);
    let mut rng = Rng::new(seed_of(RUN, 0));
    let samples = traces
        .iter()
        .filter_map(|bytes| read_trace(bytes).ok())
        .map(|trace| (trace.kind, trace.events));
    let random = places.map(|place| {
        let kind = BOTH_KINDS[place as usize % 2];
        (kind, event_list_of(kind, seed_of(RUN, place), length))
    });
    for (kind, events) in samples.chain(random) {
        calls.image_fresh(kind.number());
        for event in events {
            calls.image_step(event);
            if all && rng.percent(2) {
                calls.image_advance(
                    rng.pick(&[1, 2, 34, 35, 36, 100, 101, 151, 255, 499, 500, 501, 1000]),
                );
                calls.registers();
                calls.get(IMAGE);
            }
        }
        calls.registers();
    }
    if all {
        calls.image_advance(65_535);
        calls.get(IMAGE);
    }
    calls
}

/// Images with any field in its range, and damaged ones; buffers of another length; refused arguments.
fn any_images(calls: &mut Calls, rng: &mut Rng) {
    for _ in 0..150 {
        calls.put(IMAGE, &any_image(rng));
        for _ in 0..4 {
            calls.image_step(any_event(rng));
        }
        calls.image_advance(rng.pick(&[0, 1, 40, 600, 65_535, 65_536, u32::MAX]));
        calls.image_read(rng.below(3) as u8, rng.below(10) as u8);
        calls.get(IMAGE);
    }
    for at in 0..IMAGE_LENGTH {
        let mut image = any_image(rng);
        image[at] = rng.pick(&[255, 254, 152]);
        refuse(calls, rng, &image);
    }
    for length in [0, 1, 37, 39, 40] {
        refuse(calls, rng, &vec![0; length]);
    }
}

fn refuse(calls: &mut Calls, rng: &mut Rng, image: &[u8]) {
    calls.put(IMAGE, image);
    calls.image_step(any_event(rng));
    calls.image_advance(3);
    calls.image_read(rng.below(2) as u8, rng.below(8) as u8);
    calls.get(IMAGE);
    calls.image_fresh(rng.below(3) as u8);
    calls.get(IMAGE);
}

/// A run on a shelf of 16, then short ones on shelves of any length, good and refused.
fn shelves(calls: &mut Calls, rng: &mut Rng) {
    let shelf = fresh_shelf(rng, 16);
    let slots: Vec<u8> =
        shelf.row.iter().flat_map(|record| [record.address, record.device.kind.number()]).collect();
    calls.put(SLOTS, &slots);
    calls.put(ROW, &row_of(&shelf));
    calls.shelf_fresh();
    for named in named_events(rng, &shelf, 2500) {
        calls.shelf_step(named);
    }
    (0..17).for_each(|place| calls.shelf_show(place));
    calls.get(ROW);
    for _ in 0..60 {
        let count = any_count(rng).min(17);
        let shelf = any_shelf(rng, count);
        let slots = if rng.percent(50) { any_slots(rng, count) } else { damaged_slots(rng, count) };
        calls.put(ROW, &row_of(&shelf));
        (0..6).for_each(|_| calls.shelf_step(any_named(rng, &shelf)));
        calls.shelf_show(rng.below(18) as u8);
        calls.put(SLOTS, &slots);
        calls.shelf_fresh();
        calls.get(ROW);
    }
}

fn more_calls() -> Calls {
    let mut calls = Calls::new();
    let mut rng = Rng::new(seed_of(RUN, 100));
    any_images(&mut calls, &mut rng);
    shelves(&mut calls, &mut rng);
    for place in 0..40 {
        let mut pair =
            if place % 2 == 0 { complete_pair(&mut rng) } else { good_pair(&mut rng, 60) };
        if place % 4 == 3 {
            let damaged = rng.below(2) as usize;
            damage_sheet(&mut rng, &mut pair[damaged]);
        }
        for (buffer, sheet) in [BOARD, HOUSE].into_iter().zip(&mut pair) {
            sheet.truncate(ROOM[buffer]);
            calls.put(buffer, sheet);
        }
        calls.put(EVENTS, &vec![0xEE; rng.pick(&[48, 48, 52, 47])]);
        calls.sheets();
    }
    calls.straps();
    calls
}

fn main() -> io::Result<()> {
    let mut words = env::args().skip(1);
    let Some(folder) = words.next() else {
        eprintln!("usage: firmware FOLDER TRACE...");
        process::exit(2);
    };
    let traces = words.map(fs::read).collect::<io::Result<Vec<_>>>()?;
    image_calls(&traces, 1..25, 250, true).write(Path::new(&folder), "image")?;
    image_calls(&traces, 1..25, 250, false).write(Path::new(&folder), "plain")?;
    image_calls(&[], 200..280, 500, false).write(Path::new(&folder), "long")?;
    more_calls().write(Path::new(&folder), "more")
}
