//! Random calls, good and damaged, in rounds. A round is the same for the same seed.

use model::damage::{damage, ALL_DAMAGES};
use model::rng::Rng;
use model::straps::pins_of;
use model::trace::MOST_EVENTS;
use model::traces::{old_trace_of, trace, trace_of};

use crate::advancing::advance_calls;
use crate::converting::converter_calls;
use crate::figures::Figures;
use crate::imaging::image_calls;
use crate::importing::importer_calls;
use crate::sharing::share_calls;
use crate::sheets::sheet_calls;
use crate::shelving::shelf_calls;
use crate::starting::order_calls;
use crate::waiting::wait_calls;
use crate::writing::writer_calls;

/// Compares one round of cases: some 55 good traces with 16,000 events and ten times as many
/// damaged ones, some 100 calls of the writer, 60 of the converter, 90 of the importer, 190 with
/// order sheets, 140 about their waits, 3,000 steps on images, 9 calls with start-up scripts, 400 with shelves, 17 that
/// add to totals, 7 that join them and 18 advances.
pub fn round(seed: u64, figures: &mut Figures) {
    let mut rng = Rng::new(seed);
    for length in lengths(&mut rng) {
        good_and_damaged(&mut rng, length, figures);
    }
    too_long(figures);
    for _ in 0..60 {
        let bytes = strange(&mut rng);
        let room = rng.below(180) as usize;
        figures.run(&bytes, room);
        figures.list(&bytes);
    }
    writer_calls(&mut rng, figures);
    converter_calls(&mut rng, figures);
    importer_calls(&mut rng, figures);
    sheet_calls(&mut rng, figures);
    image_calls(&mut rng, figures);
    order_calls(&mut rng, figures);
    shelf_calls(&mut rng, figures);
    share_calls(&mut rng, figures);
    advance_calls(&mut rng, figures);
    wait_calls(&mut rng, figures);
}

/// Many short traces and a few long ones. A bus hangs only in those of 700 events and more.
fn lengths(rng: &mut Rng) -> Vec<usize> {
    let ranges = [(0, 60, 30), (61, 699, 8), (700, 2000, 4), (2001, 4096, 1), (4090, 4096, 1)];
    let mut lengths = vec![];
    for (fewest, most, count) in ranges {
        lengths.extend((0..count).map(|_| rng.between(fewest, most) as usize));
    }
    lengths
}

/// One good trace, and damaged ones out of it: every kind if it is short, else any one.
fn good_and_damaged(rng: &mut Rng, length: usize, figures: &mut Figures) {
    let seed = rng.below(1 << 31) << 31 | rng.below(1 << 31);
    let good = trace(seed, length);
    figures.run(&good, 4 * length + rng.pick(&[0, 0, 1, 3, 64]));
    figures.write_again(&good);
    if length <= 60 || rng.percent(20) {
        figures.list(&good);
    }
    let any = rng.pick(&ALL_DAMAGES);
    for kind in ALL_DAMAGES {
        if length > 0 && (length <= 60 || kind == any) {
            let refused = damage(rng, &good, kind);
            figures.damage("traces", &good, &refused.trace);
            figures.run(&refused.trace, refused.room);
            figures.list(&refused.trace);
        }
    }
}

/// One event too many, with all its bytes there.
fn too_long(figures: &mut Figures) {
    let bytes = trace_of([0; 4], &[[6, 0, 0, 0]; MOST_EVENTS + 1]);
    figures.run(&bytes, 4 * (MOST_EVENTS + 1));
}

/// Bytes that nobody made as a trace: any bytes, a good head with any rest, or a good frame
/// around events of any bytes, with a third section that is good or not.
fn strange(rng: &mut Rng) -> Vec<u8> {
    let any = |rng: &mut Rng, most: u64| -> Vec<u8> {
        (0..rng.below(most + 1)).map(|_| rng.byte()).collect()
    };
    match rng.below(3) {
        0 => any(rng, 40),
        1 => {
            let mut bytes = vec![4];
            let above = rng.pick(&[4, 4, 5]);
            bytes.extend((0..rng.between(0, 4)).map(|_| rng.below(above) as u8));
            bytes.extend([rng.below(12) as u8, rng.pick(&[0, 0, 0, 16, 255])]);
            bytes.extend(any(rng, 60));
            bytes
        }
        _ => {
            let pins = pins_of(rng.between(0x08, 0x77) as u8).unwrap_or_default();
            let count = rng.between(0, 40);
            let event = |rng: &mut Rng| {
                [rng.below(11) as u8, rng.below(3) as u8, rng.byte() & rng.byte(), 0]
            };
            let events: Vec<[u8; 4]> = (0..count).map(|_| event(rng)).collect();
            [old_trace_of(pins, &events), third_section(rng)].concat()
        }
    }
}

/// A good third section, or up to three bytes that are about one.
fn third_section(rng: &mut Rng) -> Vec<u8> {
    if rng.percent(60) {
        return vec![1, rng.below(2) as u8];
    }
    let any = rng.byte();
    (0..rng.below(4)).map(|_| rng.pick(&[0, 1, 1, 1, 2, any])).collect()
}
