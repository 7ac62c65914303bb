//! Seeded random images (document 02, #108), and what is seen in calls with them. The random images
//! say nothing about what is right.

use crate::device::{BOTH_HIGH, LOCK_REQ};
use crate::event::{make::*, read_event};
use crate::image::*;
use crate::part::Kind;
use crate::rng::Rng;
use crate::seen::Happenings;
use crate::{Device, Switch};

/// An image with every field in its range, each by itself. Few of them are reached by a run.
pub fn any_image(rng: &mut Rng) -> [u8; IMAGE_LENGTH] {
    let mut image = [0; IMAGE_LENGTH];
    image[KIND_OFFSET] = rng.below(2) as u8;
    for row in ROWS.iter().filter(|row| row.offset != KIND_OFFSET) {
        let number = match row.range {
            Range::UpTo(most) => about(rng, most),
            Range::Without(bits) => i64::from(rng.byte() & !bits),
            Range::IdleCount => {
                let kind = Kind::of(image[KIND_OFFSET]).unwrap_or(Kind::Pca9641);
                about(rng, kind.idle_ticks())
            }
        };
        put(&mut image, row, number);
    }
    image
}

/// A number from 0 to the most, often one of the ends or next to them.
fn about(rng: &mut Rng, most: i64) -> i64 {
    let any = rng.between(0, most as u64) as i64;
    rng.pick(&[0, 0, most.min(1), most, most - 1, any, any, any])
}

/// One event of any kind, most often one that reads as an event.
pub fn any_event(rng: &mut Rng) -> [u8; 4] {
    let m = rng.below(2) as u8;
    let (byte, other) = (rng.byte(), rng.byte());
    match rng.below(16) {
        0 => command(m, rng.pick(&[byte, byte & 0x87])),
        1..=3 => write(m, byte),
        4 => pair(byte, other),
        5 => read(m),
        6 => stop(m),
        7 | 8 => lines(byte & 1, other & 1, m),
        9..=11 => tick(),
        12 => pulse(m),
        13 => rng.pick(&[reset(), general_call(m, 6), general_call(m, byte)]),
        14 => [rng.below(12) as u8, rng.below(3) as u8, byte & 1, rng.below(2) as u8],
        _ => [byte, other, rng.byte(), rng.byte()],
    }
}

/// Writes one field, in range or not.
pub fn put(image: &mut [u8], row: &Row, number: i64) {
    image[row.offset..row.offset + row.bytes].copy_from_slice(&number.to_le_bytes()[..row.bytes]);
}

/// The names of all sights that calls with images have to reach. Every field that has a range is
/// alone outside it, and every field is damaged and stepped.
pub fn image_sights() -> Vec<String> {
    let mut names: Vec<String> = SIGHTS.iter().map(|name| name.to_string()).collect();
    for row in ROWS {
        names.extend((row.range != Range::UpTo(255)).then(|| alone(&row)));
        names.push(damaged(&row));
    }
    names.extend((0..8).map(register));
    names
}

fn alone(row: &Row) -> String {
    format!("16 for one field: {}", row.field)
}

fn damaged(row: &Row) -> String {
    format!("damaged and stepped: {}", row.field)
}

fn register(register: u8) -> String {
    format!("register {register} read out of an image")
}

const SIGHTS: &[&str] = &[
    // Refusals, and their order.
    "buffer of 0 bytes",
    "buffer of 37 bytes",
    "buffer of 39 bytes",
    "9 where a field is outside its range",
    "9 where the event is refused",
    "16 where the event is of unknown kind",
    "16 where a field of the event is out of range",
    "16 where the event would be out of sequence",
    "16 for two fields",
    "idle count of 102 refused for a PCA9641",
    "idle count of 102 stepped for a TPT29641",
    "idle count of 152 refused for a TPT29641",
    "event refused with 2 on an image",
    "event refused with 3 on an image",
    "event refused with 4 on an image",
    // Combinations that no run reaches.
    "owner without a request, stepped",
    "reserve count above the owner's RT, stepped",
    "reserve count with an RT of 0 owned, stepped",
    "switch closed with no owner, stepped",
    "grant and BUS_CONNECT with the switch apart, stepped",
    "initialising for another than the owner, stepped",
    "drives low with no owner, stepped",
    "low count with its line high, stepped",
    "idle count on a bus not idle, stepped",
    // Fresh images and registers.
    "fresh image over one out of range",
    "fresh image of another kind than before",
    "register 7 of a full box read, the box stays full",
    "register of no master",
    "no such register",
    "no such register of an image out of range",
];

impl Happenings {
    /// Looks at a step on a buffer.
    pub fn see_image_step(&mut self, event: [u8; 4], image: &[u8]) {
        let read = read_event(event);
        let device = match read_image(image) {
            Err(OTHER_LENGTH) => return self.see_other_length(event, image),
            Err(_) => return self.see_out_of_range(event, image),
            Ok(device) => device,
        };
        let number = device.clone().step(event)[0];
        self.note(read == Err(2), "event refused with 2 on an image");
        self.note(read == Err(3), "event refused with 3 on an image");
        self.note(number == 4, "event refused with 4 on an image");
        let second = device.kind == Kind::Tpt29641 && device.idle_count == 102;
        self.note(second, "idle count of 102 stepped for a TPT29641");
        self.see_no_run(&device);
    }

    fn see_other_length(&mut self, event: [u8; 4], image: &[u8]) {
        self.note(true, &format!("buffer of {} bytes", image.len()));
        let long = image.get(..IMAGE_LENGTH).map(read_image);
        let outside = matches!(long, Some(Err(_)));
        self.note(outside, "9 where a field is outside its range");
        self.note(read_event(event).is_err(), "9 where the event is refused");
    }

    fn see_out_of_range(&mut self, event: [u8; 4], image: &[u8]) {
        let outside: Vec<&Row> = ROWS.iter().filter(|row| !row.fits(image)).collect();
        match outside[..] {
            [row] => self.note(true, &alone(row)),
            _ => self.note(true, "16 for two fields"),
        }
        let read = read_event(event);
        self.note(read == Err(2), "16 where the event is of unknown kind");
        self.note(read == Err(3), "16 where a field of the event is out of range");
        // A STOP of a port at rest.
        let stop = matches!(event, [3, 0, 0, 0]) && image[32] == 0;
        self.note(stop, "16 where the event would be out of sequence");
        let idle = (image[KIND_OFFSET], image[20]);
        self.note(idle == (0, 102), "idle count of 102 refused for a PCA9641");
        self.note(idle == (1, 152), "idle count of 152 refused for a TPT29641");
    }

    /// Looks for what no run reaches.
    fn see_no_run(&mut self, device: &Device) {
        let owner = device.owner();
        let connect = device.owner_with_connect();
        if let Some(m) = owner {
            let own = &device.masters[m];
            let above = device.reserve_count > i64::from(own.rt);
            self.note(!own.has(LOCK_REQ), "owner without a request, stepped");
            self.note(above && own.rt > 0, "reserve count above the owner's RT, stepped");
            self.note(above && own.rt == 0, "reserve count with an RT of 0 owned, stepped");
        }
        let closed = device.closed_for().is_some();
        self.note(closed && owner.is_none(), "switch closed with no owner, stepped");
        let apart = device.switch == Switch::Apart && connect.is_some();
        self.note(apart, "grant and BUS_CONNECT with the switch apart, stepped");
        if let Switch::Initialising { master, .. } = device.switch {
            let other = owner.is_some_and(|m| m != master);
            self.note(other, "initialising for another than the owner, stepped");
        }
        let pulled = device.drives != BOTH_HIGH && owner.is_none();
        self.note(pulled, "drives low with no owner, stepped");
        let levels = device.levels();
        let counted = levels.scl && device.scl_low_count > 0;
        self.note(counted, "low count with its line high, stepped");
        let idle = device.idle_count > 0 && !device.is_idle();
        self.note(idle, "idle count on a bus not idle, stepped");
    }

    /// Looks at an image whose one byte was damaged.
    pub fn see_damaged(&mut self, image: &[u8], at: usize) {
        if read_image(image).is_ok() {
            let row = ROWS.iter().rfind(|row| row.offset <= at);
            row.into_iter().for_each(|row| self.note(true, &damaged(row)));
        }
    }

    /// Looks at a fresh image made in a buffer.
    pub fn see_image_fresh(&mut self, kind: u8, image: &[u8]) {
        let before = read_image(image);
        let made = kind < 2;
        let refused = before == Err(OUT_OF_RANGE);
        self.note(made && refused, "fresh image over one out of range");
        let other = before.is_ok_and(|device| device.kind.number() != kind);
        self.note(made && other, "fresh image of another kind than before");
    }

    /// Looks at a register read out of an image.
    pub fn see_image_read(&mut self, master: u8, number: u8, image: &[u8]) {
        let read = read_image(image);
        let bad = read == Err(OUT_OF_RANGE);
        self.note(bad && number > 7, "no such register of an image out of range");
        let Ok(device) = read else {
            return;
        };
        self.note(number > 7 && master < 2, "no such register");
        self.note(number <= 7 && master > 1, "register of no master");
        if number <= 7 && master < 2 {
            self.note(true, &register(number));
            let full = number == 7 && device.masters[usize::from(master)].mail_full;
            self.note(full, "register 7 of a full box read, the box stays full");
        }
    }
}
