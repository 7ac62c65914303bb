//! The flat image on both sides (document 02, #108): runs on it, steps on any buffer, fresh images
//! and registers.

use gunwaleish::{boundary, Answer, Device, Master, Part, Register};
use model::event::make::*;
use model::image::{IMAGE_LENGTH, ROWS};
use model::images::{any_event, any_image};
use model::part::BOTH_KINDS;
use model::rng::Rng;
use model::trace::hex;
use model::traces::{event_list_of, trace_of_kind};
use model::{image_fresh, image_of, image_read, image_step, Kind};

use crate::check::pattern;
use crate::figures::{differ, Difference, Figures};
use crate::words::{answer_in_words, event_in_words};

type Image = [u8; IMAGE_LENGTH];

/// Runs events on an image, from a fresh one on. Each answer is the one that the library gives in a
/// trace of these events, where it steps the record; each image is that of the model's device. Gives
/// the outcome of each event and the image after it.
pub fn check_image_run(kind: Kind, events: &[[u8; 4]]) -> Result<Vec<(u8, Image)>, Difference> {
    let trace = trace_of_kind(kind, [0; 4], events);
    let mut answers = vec![0; 4 * events.len()];
    boundary::run_trace(&trace, &mut answers);
    let mut image = [0xAA; IMAGE_LENGTH];
    boundary::image_fresh(kind.number(), &mut image);
    let mut device = model::Device::power_up_of(kind);
    let mut in_rust = Device::fresh(part_of(kind));
    let mut after = vec![];
    for (place, (&event, answer)) in events.iter().zip(answers.chunks_exact(4)).enumerate() {
        let said = boundary::image_step(event, &mut image).to_le_bytes();
        let at = || format!("event {} of {}, {}", place + 1, events.len(), event_in_words(event));
        if said != answer {
            return differ(format!(
                "{}: the image answers {said:02X?}, the trace {answer:02X?}",
                at()
            ));
        }
        device.step(event);
        if image != image_of(&device) {
            return differ(format!("{}: {}", at(), images_differ(&image_of(&device), &image)));
        }
        if in_rust.step(event) != Answer::from(said) || in_rust.image() != &image {
            return differ(format!("{}: the Rust crate's device goes another way", at()));
        }
        after.push((said[0], image));
    }
    Ok(after)
}

fn part_of(kind: Kind) -> Part {
    match kind {
        Kind::Pca9641 => Part::Pca9641,
        Kind::Tpt29641 => Part::Tpt29641,
    }
}

/// The first field that differs, by its name.
pub(crate) fn images_differ(model: &[u8], library: &[u8]) -> String {
    if model.len() != IMAGE_LENGTH {
        return format!("{} is written, which has to stay", hex(model));
    }
    match ROWS.iter().find(|row| row.number(model) != row.number(library)) {
        None => "the images do not differ".to_string(),
        Some(row) => format!(
            "{} at {}: model {}, library {}",
            row.field,
            row.offset,
            row.number(model),
            row.number(library)
        ),
    }
}

/// Steps any buffer by any event. Gives the first answer byte, the outcome or the number.
pub fn check_image_step(event: [u8; 4], image: &[u8]) -> Result<u8, Difference> {
    let mut expected = image.to_vec();
    let answer = image_step(event, &mut expected);
    let mut buffer = image.to_vec();
    let said = boundary::image_step(event, &mut buffer).to_le_bytes();
    if said != answer {
        return differ(format!(
            "{} on an image is answered differently\n  model:   {}\n  library: {}",
            event_in_words(event),
            answer_in_words(answer),
            answer_in_words(said)
        ));
    }
    if buffer != expected {
        let how = images_differ(&expected, &buffer);
        return differ(format!("{} leaves another image: {how}", event_in_words(event)));
    }
    let same = match Device::from_image(image) {
        Err(refusal) => [refusal.number(), 0, 0, 0] == answer,
        Ok(mut device) => {
            device.step(event) == Answer::from(answer) && device.image()[..] == expected
        }
    };
    match same {
        true => Ok(answer[0]),
        false => differ("the Rust crate's device goes another way"),
    }
}

/// Makes a fresh image in any buffer. Gives the number.
pub fn check_image_fresh(kind: u8, image: &[u8]) -> Result<u8, Difference> {
    let (mut expected, mut buffer) = (image.to_vec(), image.to_vec());
    let number = image_fresh(kind, &mut expected);
    let said = boundary::image_fresh(kind, &mut buffer);
    if (said, &buffer) != (u32::from(number), &expected) {
        return differ(format!(
            "fresh of kind {kind}: model {number} and {}, library {said} and {}",
            hex(&expected),
            hex(&buffer)
        ));
    }
    Ok(number)
}

/// Reads a register out of any buffer. Gives the number.
pub fn check_image_read(master: u8, register: u8, image: &[u8]) -> Result<u8, Difference> {
    let (number, byte) = match image_read(master, register, image) {
        Ok(byte) => (0, byte),
        Err(number) => (number, 0),
    };
    let said = boundary::image_read(master, register, image);
    if said != u32::from(number) + 256 * u32::from(byte) {
        return differ(format!(
            "register {register} of master {master}: model number {number}, byte {byte:02X}h, \
             library {said:X}h"
        ));
    }
    let names = Master::of(master).zip(Register::of(register));
    if let (Some((master, register)), Ok(device)) = (names, Device::from_image(image)) {
        if device.read(master, register) != byte {
            return differ(format!("the Rust crate reads {register} differently"));
        }
    }
    Ok(number)
}

/// Random calls with images: runs, damaged images out of them, and images in range that few runs
/// reach.
pub fn image_calls(rng: &mut Rng, figures: &mut Figures) {
    for longest in [60, 60, 700, 1500] {
        let kind = rng.pick(&BOTH_KINDS);
        let events = event_list_of(kind, rng.below(1 << 31), rng.below(longest) as usize);
        let after = figures.image_run(kind, &events);
        for _ in 0..2.min(after.len()) {
            let (_, image) = after[rng.below(after.len() as u64) as usize];
            damage_one_byte(rng, image, figures);
        }
    }
    for _ in 0..40 {
        let mut image = any_image(rng);
        for _ in 0..4 {
            let event = any_event(rng);
            figures.image_step(event, &image);
            image_step(event, &mut image);
        }
        figures.image_read(rng.below(3) as u8, rng.below(9) as u8, &image);
    }
    other_buffers(rng, figures);
}

/// All 256 values of one byte of a good image.
fn damage_one_byte(rng: &mut Rng, good: Image, figures: &mut Figures) {
    let at = rng.below(IMAGE_LENGTH as u64) as usize;
    for value in 0..=255 {
        let mut image = good;
        image[at] = value;
        figures.damage("images", &good, &image);
        figures.damaged(any_event(rng), &image, at);
    }
    figures.image_read(rng.below(2) as u8, rng.below(8) as u8, &good);
}

/// Buffers of other lengths, and bytes that nobody made as an image.
fn other_buffers(rng: &mut Rng, figures: &mut Figures) {
    let any: Vec<u8> = (0..80).map(|_| rng.byte()).collect();
    let good = any_image(rng);
    let longer = [&good[..], &any[..rng.between(1, 42) as usize]].concat();
    let mut twice = good;
    (twice[6], twice[37]) = (rng.between(2, 255) as u8, rng.between(2, 255) as u8);
    let buffers = [&good[..], &good[..37], &good[1..], &longer, &any[..IMAGE_LENGTH], &twice];
    for buffer in buffers.into_iter().chain([&any[..rng.below(80) as usize]]) {
        figures.image_step(any_event(rng), buffer);
        let kind = rng.pick(&[0, 1, 2, any[0]]);
        figures.image_fresh(kind, buffer);
        figures.image_read(rng.below(3) as u8, rng.pick(&[0, 2, 7, 8, any[1]]), buffer);
    }
}

/// Every byte in every place of good images of both kinds, under events of several kinds; and every
/// register of every such image.
pub fn images_byte_by_byte(figures: &mut Figures) {
    let events = [tick(), read(0), pulse(1), lines(1, 0, 0), general_call(1, 6), stop(0), [10; 4]];
    for (place, good) in good_images().into_iter().enumerate() {
        for at in 0..IMAGE_LENGTH {
            for value in 0..=255u8 {
                let mut image = good;
                image[at] = value;
                figures.damage("images", &good, &image);
                figures.damaged(tick(), &image, at);
                let other = (place + at + usize::from(value)) % events.len();
                figures.damaged(events[other], &image, at);
                figures.image_read(value % 2, value / 2 % 8, &image);
            }
        }
    }
}

/// Fresh images, and some out of runs: with and without an owner, initialising, held, hung.
pub(crate) fn good_images() -> Vec<Image> {
    let mut images = vec![];
    for kind in BOTH_KINDS {
        let mut device = model::Device::power_up_of(kind);
        images.push(image_of(&device));
        for (place, event) in event_list_of(kind, 108, 1200).into_iter().enumerate() {
            device.step(event);
            if place % 40 == 39 {
                images.push(image_of(&device));
            }
        }
    }
    images
}

/// Every length from 0 to 80, filled with a good image's bytes, with 0 and with FFh; every kind of a
/// fresh image; every master with every register.
pub fn images_of_every_length(figures: &mut Figures) {
    let good = image_of(&model::Device::power_up());
    for length in 0..=80 {
        let cut: Vec<u8> = good.into_iter().cycle().take(length).collect();
        for buffer in [cut, vec![0; length], vec![0xFF; length], pattern(length)] {
            for event in [tick(), reset(), [10, 0, 0, 0], [6, 1, 0, 0]] {
                figures.image_step(event, &buffer);
            }
            (0..4).for_each(|kind| figures.image_fresh(kind, &buffer));
            figures.image_read(0, 1, &buffer);
            figures.image_read(2, 8, &buffer);
        }
    }
    (0..=255).for_each(|kind| figures.image_fresh(kind, &[0xEE; IMAGE_LENGTH]));
    for master in 0..=255 {
        (0..=255).for_each(|register| figures.image_read(master, register, &good));
    }
}

impl Figures {
    /// Runs events on an image and counts them. Gives the outcomes and images, none if they differ.
    pub fn image_run(&mut self, kind: Kind, events: &[[u8; 4]]) -> Vec<(u8, Image)> {
        match check_image_run(kind, events) {
            Ok(after) => {
                after.iter().for_each(|(outcome, _)| self.answered("image step", *outcome));
                after
            }
            Err(difference) => {
                self.tell("events", &events.concat(), format!("{kind:?}; {difference}"));
                vec![]
            }
        }
    }

    /// Steps a buffer on both sides and counts it.
    pub fn image_step(&mut self, event: [u8; 4], image: &[u8]) {
        match check_image_step(event, image) {
            Ok(number) => {
                self.answered("image step", number);
                self.sights.see_image_step(event, image);
            }
            Err(difference) => self.tell("image", image, &difference),
        }
    }

    /// The same with an image whose one byte was damaged.
    pub fn damaged(&mut self, event: [u8; 4], image: &[u8], at: usize) {
        self.image_step(event, image);
        self.sights.see_damaged(image, at);
    }

    /// Makes a fresh image on both sides and counts it.
    pub fn image_fresh(&mut self, kind: u8, image: &[u8]) {
        match check_image_fresh(kind, image) {
            Ok(number) => {
                self.answered("image fresh", number);
                self.sights.see_image_fresh(kind, image);
            }
            Err(difference) => self.tell("image", image, &difference),
        }
    }

    /// Reads a register on both sides and counts it.
    pub fn image_read(&mut self, master: u8, register: u8, image: &[u8]) {
        match check_image_read(master, register, image) {
            Ok(number) => {
                self.answered("image read", number);
                self.sights.see_image_read(master, register, image);
            }
            Err(difference) => self.tell("image", image, &difference),
        }
    }
}
