//! Seeded random devices to advance (document 02, #113), and what is seen when they are. The random
//! cases say nothing about what is right.

use crate::advance::{differ_beside_counts, MOST_TICKS};
use crate::device::*;
use crate::event::make::*;
use crate::image::{read_image, OTHER_LENGTH};
use crate::part::{Kind, BOTH_KINDS};
use crate::phrases::Phrase;
use crate::rng::Rng;
use crate::seen::Happenings;
use crate::traces::event_list_of;

/// Numbers of ticks about which something ends: a hold and a time-out, the idle timers, a reserve,
/// the low counts, and the most there may be.
pub const ENDS: [u32; 16] =
    [0, 1, 34, 35, 36, 100, 101, 150, 151, 254, 255, 256, 499, 500, 501, 502];

/// A number of ticks. Long ones are few, since the model steps through each.
pub fn any_ticks(rng: &mut Rng) -> u32 {
    match rng.below(80) {
        0 => rng.pick(&[MOST_TICKS - 1, MOST_TICKS]),
        1 => rng.pick(&[MOST_TICKS + 1, u32::MAX, u32::MAX - 1, 1 << 16, 1 << 31]),
        2 => rng.below(5000) as u32,
        3..=22 => rng.below(700) as u32,
        _ => rng.pick(&ENDS),
    }
}

/// A device that a run has reached.
pub fn reached(rng: &mut Rng) -> Device {
    let kind = rng.pick(&BOTH_KINDS);
    let mut device = Device::power_up_of(kind);
    let most = rng.pick(&[60, 400, 1200]);
    let length = rng.below(most) as usize;
    for event in event_list_of(kind, rng.below(1 << 31), length) {
        device.step(event);
    }
    if rng.percent(50) {
        quiet_story(rng).into_iter().for_each(|event| {
            device.step(event);
        });
    }
    device
}

/// Much that time alone will bring: a hold, both masters asking, reserves and idle timers, a low line.
fn quiet_story(rng: &mut Rng) -> Phrase {
    let mut story = vec![];
    if rng.percent(60) {
        story.extend([lines(1, 1, 1), command(0, 1), write(0, SMBUS_SWRST), general_call(0, 6)]);
    }
    for m in rng.pick(&[[0, 1], [1, 0]]) {
        let contr = bit(rng.percent(80), LOCK_REQ)
            | bit(rng.percent(50), IDLE_TIMER_DIS)
            | bit(rng.percent(60), BUS_CONNECT)
            | bit(rng.percent(20), BUS_INIT)
            | bit(rng.percent(60), SMBUS_DIS);
        story.extend([command(m, 3), write(m, rng.pick(&[0, 0, 1, 2, 40, 255])), stop(m)]);
        story.extend([command(m, 5), write(m, rng.pick(&[0x7F, 0x3F, 0x00])), stop(m)]);
        story.extend([command(m, 1), write(m, contr), stop(m)]);
        if rng.percent(15) {
            story.pop();
        }
    }
    if rng.percent(20) {
        story.extend([command(0, 2), write(0, rng.pick(&[0x00, 0x40, 0x80])), stop(0)]);
    }
    if rng.percent(50) {
        let low = [lines(0, 1, 1), lines(1, 0, 1), lines(0, 0, 1), lines(1, 1, 1)];
        story.push(rng.pick(&low));
    }
    story.extend(vec![tick(); rng.pick(&[0, 0, 1, 5, 34, 35, 99])]);
    story
}

/// The names of all sights that advances have to reach.
pub const ADVANCE_SIGHTS: &[&str] = &[
    // Numbers of ticks.
    "advance by 0 ticks",
    "advance by 65535 ticks",
    "advance by 65536 ticks, refused",
    "advance past the most on an image out of range",
    "advance past the most in a buffer of another length",
    "advance by 0 ticks on an image out of range",
    // What one tick of it changes.
    "ticks that change nothing",
    "ticks that change counts alone",
    "tick of an advance: loss by reserve",
    "tick of an advance: loss by idle timer of a PCA9641",
    "tick of an advance: loss by idle timer of a TPT29641",
    "tick of an advance: the bus passes on",
    "tick of an advance: the bus passes on, initialisation starts",
    "tick of an advance: SCL rises as a hold ends",
    "tick of an advance: a hold ends and SCL stays low",
    "tick of an advance: grant as a hold ends",
    "tick of an advance: cut at 35 ticks",
    "tick of an advance: cut at 35 ticks while initialising",
    "tick of an advance: hung by SCL",
    "tick of an advance: hung by SDA",
    "tick of an advance: hung asserts an output",
    "reserve runs out on a bus not idle, no change",
    "hung already as the other count ends, no change",
    // How many, from a device that a run has reached.
    "advance with 1 changing tick",
    "advance with 2 changing ticks",
    "advance with 3 changing ticks",
    "changing tick at the last of an advance",
    "changing tick just after the last of an advance",
];

impl Happenings {
    /// Looks at an advance on a buffer.
    pub fn see_advance(&mut self, ticks: u32, image: &[u8]) {
        let past = ticks > MOST_TICKS;
        self.note(ticks == 0, "advance by 0 ticks");
        self.note(ticks == MOST_TICKS, "advance by 65535 ticks");
        let mut device = match read_image(image) {
            Err(number) => {
                let length = number == OTHER_LENGTH;
                let sight = "advance past the most in a buffer of another length";
                self.note(past && length, sight);
                self.note(past && !length, "advance past the most on an image out of range");
                let none = ticks == 0 && !length;
                return self.note(none, "advance by 0 ticks on an image out of range");
            }
            Ok(device) => device,
        };
        self.note(ticks == MOST_TICKS + 1, "advance by 65536 ticks, refused");
        if past {
            return;
        }
        // After some ticks more than the longest count has, nothing more comes.
        let mut changed = false;
        for _ in 0..ticks.min(1200) {
            let before = device.clone();
            device.step(tick());
            self.see_tick_of(&before, &device);
            changed = differ_beside_counts(&before, &device);
        }
        self.note(changed && ticks <= 1200, "changing tick at the last of an advance");
        let before = device.clone();
        device.step(tick());
        let next = ticks <= 1200 && differ_beside_counts(&before, &device);
        self.note(next, "changing tick just after the last of an advance");
    }

    /// Looks at how many ticks change something from a device that a run has reached.
    pub fn see_changing(&mut self, changing: u32) {
        let plural = if changing == 1 { "" } else { "s" };
        self.note(changing > 0, &format!("advance with {changing} changing tick{plural}"));
    }

    fn see_tick_of(&mut self, before: &Device, after: &Device) {
        let same = before == after;
        let changes = differ_beside_counts(before, after);
        self.note(same, "ticks that change nothing");
        self.note(!same && !changes, "ticks that change counts alone");
        let mut note = |condition: bool, what: &str| {
            if condition {
                self.note(true, &format!("tick of an advance: {what}"));
            }
        };
        let (was, is) = (before.owner(), after.owner());
        if let Some(grant) = before.grant.as_ref().filter(|_| was != is) {
            let part = match after.kind {
                Kind::Pca9641 => "a PCA9641",
                Kind::Tpt29641 => "a TPT29641",
            };
            note(grant.reserve > 0, "loss by reserve");
            note(grant.reserve == 0, &format!("loss by idle timer of {part}"));
            note(is.is_some(), "the bus passes on");
            let starts = is.is_some() && after.initialising().is_some();
            note(starts, "the bus passes on, initialisation starts");
        }
        let hold_ends = before.hold == 1;
        note(hold_ends && after.levels().scl, "SCL rises as a hold ends");
        note(hold_ends && !after.levels().scl, "a hold ends and SCL stays low");
        note(hold_ends && was.is_none() && is.is_some(), "grant as a hold ends");
        let connect = |device: &Device| device.owner_with_connect();
        let cut = was == is && connect(before).is_some() && connect(after).is_none();
        note(cut, "cut at 35 ticks");
        note(cut && before.initialising().is_some(), "cut at 35 ticks while initialising");
        let hangs = !before.is_hung() && after.is_hung();
        note(hangs && after.scl_low_count == SCL_HUNG_TICKS, "hung by SCL");
        note(hangs && after.sda_low_count == SDA_HUNG_TICKS, "hung by SDA");
        let asserted = |device: &Device| [0, 1].map(|m| device.interrupt_asserted(m));
        note(hangs && asserted(before) != asserted(after), "hung asserts an output");
        if !changes {
            self.see_no_change(before, after);
        }
    }

    /// Looks at what ends in a tick and changes nothing but counts.
    fn see_no_change(&mut self, before: &Device, after: &Device) {
        let reserve = before.reserve_count == 1 && after.owner().is_some();
        self.note(reserve, "reserve runs out on a bus not idle, no change");
        let counts = [before, after].map(|device| device.sda_low_count == SDA_HUNG_TICKS);
        let other = before.is_hung() && counts == [false, true];
        self.note(other, "hung already as the other count ends, no change");
    }
}
