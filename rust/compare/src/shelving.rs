//! A shelf of several arbiters on both sides (document 02, #110): runs on a row, steps on any buffer,
//! places shown and fresh rows.

use gunwaleish::boundary;
use model::event::make::*;
use model::image::IMAGE_LENGTH;
use model::rng::Rng;
use model::row::RECORD_LENGTH;
use model::shelf::{naming_of, Naming, MOST_DEVICES};
use model::shelves::*;
use model::trace::hex;
use model::{image_of, row_of, Device, Record, Shelf};

use crate::check::pattern;
use crate::figures::{differ, Difference, Figures};
use crate::imaging::images_differ;
use crate::words::{answer_in_words, event_in_words};

/// Runs named events on a row. Each answer and each row is that of the model's shelf, and every record
/// is where the library's step on a single image takes it, over the events that reach it. Gives each
/// event's first answer byte and the row after it.
pub fn check_shelf_run(shelf: &Shelf, events: &[Named]) -> Result<Vec<(u8, Vec<u8>)>, Difference> {
    let mut shelf = shelf.clone();
    let mut row = row_of(&shelf);
    let mut alone: Vec<[u8; IMAGE_LENGTH]> =
        shelf.row.iter().map(|record| image_of(&record.device)).collect();
    let mut after = vec![];
    for (count, &(name, event)) in events.iter().enumerate() {
        let at = || format!("event {} of {}, {}", count + 1, events.len(), named(name, event));
        let answer = shelf.step(name, event);
        same_answer(answer, boundary::shelf_step(name, event, &mut row))
            .map_err(|e| format!("{}{e}", at()))?;
        same_row(&row_of(&shelf), &row).map_err(|e| format!("{}: {e}", at()))?;
        let reached = match naming_of(event[0]) {
            Naming::All => 0..alone.len(),
            _ => shelf.place_named(name, event[0]).map_or(0..0, |place| place..place + 1),
        };
        alone[reached].iter_mut().for_each(|image| {
            boundary::image_step(event, image);
        });
        let records = row.chunks(RECORD_LENGTH).map(|record| &record[1..]);
        if !records.eq(alone.iter().map(|image| &image[..])) {
            return differ(format!("{}: a record is not where its own events take it", at()));
        }
        after.push((answer[0], row.clone()));
    }
    Ok(after)
}

fn named(name: u8, event: [u8; 4]) -> String {
    format!("{} named {name:02X}h", event_in_words(event))
}

fn same_answer(model: [u8; 4], packed: u32) -> Result<(), Difference> {
    let library = packed.to_le_bytes();
    if library == model {
        return Ok(());
    }
    differ(format!(
        " is answered differently\n  model:   {}\n  library: {}",
        answer_in_words(model),
        answer_in_words(library)
    ))
}

/// The first record that differs, and its first field.
fn same_row(model: &[u8], library: &[u8]) -> Result<(), Difference> {
    let Some(byte) = (0..model.len()).find(|&at| model[at] != library[at]) else {
        return Ok(());
    };
    let (place, at) = (byte / RECORD_LENGTH, byte % RECORD_LENGTH);
    let record = |row: &'_ [u8]| row.chunks(RECORD_LENGTH).nth(place).unwrap_or_default().to_vec();
    let (model, library) = (record(model), record(library));
    let what = match at {
        0 => format!("address {:02X}h, library {:02X}h", model[0], library[0]),
        _ => images_differ(&model[1..], &library[1..]),
    };
    differ(format!("place {place}: {what}"))
}

/// Steps any buffer by any named event. Gives the first answer byte, the outcome or the number.
pub fn check_shelf_step(name: u8, event: [u8; 4], row: &[u8]) -> Result<u8, Difference> {
    let mut expected = row.to_vec();
    let answer = model::shelf_step(name, event, &mut expected);
    let mut buffer = row.to_vec();
    let packed = boundary::shelf_step(name, event, &mut buffer);
    same_answer(answer, packed).map_err(|e| format!("{}{e}", named(name, event)))?;
    same_row(&expected, &buffer).map_err(|e| format!("{}: {e}", named(name, event)))?;
    Ok(answer[0])
}

/// Shows a place of any buffer. Gives the first answer byte.
pub fn check_shelf_show(place: u8, row: &[u8]) -> Result<u8, Difference> {
    let answer = model::shelf_show(place, row);
    same_answer(answer, boundary::shelf_show(place, row))
        .map_err(|e| format!("place {place}{e}"))?;
    Ok(answer[0])
}

/// Makes a fresh row in any buffer. Gives the number.
pub fn check_shelf_fresh(slots: &[u8], row: &[u8]) -> Result<u8, Difference> {
    let (mut expected, mut buffer) = (row.to_vec(), row.to_vec());
    let number = model::shelf_fresh(slots, &mut expected);
    let said = boundary::shelf_fresh(slots, &mut buffer);
    if said != u32::from(number) {
        return differ(format!("fresh row in {}: model {number}, library {said}", row.len()));
    }
    same_row(&expected, &buffer).map_err(|e| format!("fresh row: {e}"))?;
    Ok(number)
}

/// Random calls with shelves: runs, rows in range that few runs reach, damaged rows, and fresh rows.
pub fn shelf_calls(rng: &mut Rng, figures: &mut Figures) {
    let longest = rng.pick(&[60, 60, 60, 400]);
    for most in [4, 4, 16] {
        let count = rng.between(1, most) as usize;
        let shelf = fresh_shelf(rng, count);
        let events = named_events(rng, &shelf, longest);
        let after = figures.shelf_run(&shelf, &events);
        for (_, row) in after.iter().step_by(7) {
            figures.shelf_show(rng.below(most + 2) as u8, row);
        }
    }
    for _ in 0..12 {
        let count = any_count(rng);
        let shelf = any_shelf(rng, count);
        let (row, damaged) = (row_of(&shelf), damaged_row(rng, &shelf));
        figures.damage("rows", &row, &damaged);
        for _ in 0..3 {
            let (name, event) = any_named(rng, &shelf);
            figures.shelf_step(name, event, &row);
            figures.shelf_step(name, event, &damaged);
        }
        figures.shelf_show(rng.below(19) as u8, &row);
        figures.shelf_show(rng.below(19) as u8, &damaged);
        let (slots, wrong) = (any_slots(rng, count), damaged_slots(rng, count));
        let other = rng.below(19) as usize * RECORD_LENGTH;
        for slots in [slots, wrong] {
            figures.shelf_fresh(&slots, &row);
            figures.shelf_fresh(&slots, &damaged);
            figures.shelf_fresh(&slots, &pattern(other));
        }
    }
}

/// A row of fresh devices with rising addresses.
fn plain_row(count: usize) -> Vec<u8> {
    let record = |at| Record { address: 0x70 + at as u8, device: Device::power_up() };
    row_of(&Shelf { row: (0..count).map(record).collect() })
}

/// One event of each kind, one of unknown kind, and one with a bad field for each kind.
fn kinds_of_event() -> Vec<[u8; 4]> {
    let mut events = vec![command(0, 1), write(1, 1), read(0), stop(1), pair(1, 0x81)];
    events.extend([lines(0, 1, 0), tick(), pulse(1), reset(), general_call(1, 6)]);
    events.extend([general_call(0, 7), [10, 0, 0, 0], [255; 4]]);
    events.extend((0..10).map(|kind| [kind, 0, 0, 2]));
    events
}

/// Every name with every kind of event, on rows of one, three, 16 and 17 devices and on none; and
/// every place shown.
pub fn names_on_rows(figures: &mut Figures) {
    for count in [0, 1, 3, MOST_DEVICES, MOST_DEVICES + 1] {
        let good = plain_row(count);
        let mut equal = good.clone();
        if count > 1 {
            equal[RECORD_LENGTH] = 0x70;
        }
        for name in 0..=255 {
            for row in [&good, &equal] {
                figures.shelf_show(name, row);
                for event in kinds_of_event() {
                    figures.shelf_step(name, event, row);
                }
            }
        }
    }
}

/// Every length of a row to a little past 17 records, with a good row's bytes, with 0 and with FFh;
/// and fresh rows of them for every number of slots, also with one byte too many.
pub fn rows_of_every_length(figures: &mut Figures) {
    let good = plain_row(MOST_DEVICES + 2);
    let slots: Vec<u8> = (0..40).flat_map(|at| [at, at % 2]).collect();
    for length in 0..=17 * RECORD_LENGTH + 2 {
        for row in [good[..length].to_vec(), vec![0; length], vec![0xFF; length]] {
            for event in [tick(), stop(0), lines(1, 1, 1), [10, 0, 0, 0]] {
                figures.shelf_step(0, event, &row);
            }
            figures.shelf_show(0, &row);
            let count = length / RECORD_LENGTH;
            for bytes in [2 * count, 2 * count + 1, 2 * count + 2] {
                figures.shelf_fresh(&slots[..bytes], &row);
            }
        }
    }
    for at in 0..6 {
        for value in 0..=255 {
            let mut slots = [0x70, 0, 0x71, 1, 0x72, 0];
            slots[at] = value;
            figures.shelf_fresh(&slots, &pattern(3 * RECORD_LENGTH));
        }
    }
}

impl Figures {
    /// Runs named events on a row and counts them. Gives the outcomes and rows, none if they differ.
    pub fn shelf_run(&mut self, shelf: &Shelf, events: &[Named]) -> Vec<(u8, Vec<u8>)> {
        match check_shelf_run(shelf, events) {
            Ok(after) => {
                let rows = std::iter::once(row_of(shelf)).chain(after.iter().map(|a| a.1.clone()));
                for ((number, _), (&(name, event), row)) in
                    after.iter().zip(events.iter().zip(rows))
                {
                    self.answered("shelf step", *number);
                    self.sights.see_shelf_step(name, event, &row);
                }
                after
            }
            Err(difference) => {
                // Each event after its name.
                let bytes: Vec<u8> = events
                    .iter()
                    .flat_map(|(name, [a, b, c, d])| [*name, *a, *b, *c, *d])
                    .collect();
                let call = format!("row {}; {difference}", hex(&row_of(shelf)));
                self.tell("named", &bytes, &call);
                vec![]
            }
        }
    }

    /// Steps a row on both sides and counts it.
    pub fn shelf_step(&mut self, name: u8, event: [u8; 4], row: &[u8]) {
        match check_shelf_step(name, event, row) {
            Ok(number) => {
                self.answered("shelf step", number);
                self.sights.see_shelf_step(name, event, row);
            }
            Err(difference) => self.tell("row", row, &difference),
        }
    }

    /// Shows a place on both sides and counts it.
    pub fn shelf_show(&mut self, place: u8, row: &[u8]) {
        match check_shelf_show(place, row) {
            Ok(number) => {
                self.answered("shelf show", number);
                self.sights.see_shelf_show(place, row);
            }
            Err(difference) => self.tell("row", row, &difference),
        }
    }

    /// Makes a fresh row on both sides and counts it.
    pub fn shelf_fresh(&mut self, slots: &[u8], row: &[u8]) {
        match check_shelf_fresh(slots, row) {
            Ok(number) => {
                self.answered("shelf fresh", number);
                self.sights.see_shelf_fresh(slots, row);
            }
            Err(difference) => self.tell("slots", slots, &difference),
        }
    }
}
