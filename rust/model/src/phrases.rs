//! Short runs of events that belong together, chosen at random.
//! They only shape the random cases. They say nothing about what is right.

use crate::device::*;
use crate::event::make::*;
use crate::part::Kind;
use crate::rng::Rng;

pub type Bytes = [u8; 4];
pub type Phrase = Vec<Bytes>;

/// What a master does next. It depends on whether it owns the bus.
pub fn master_phrase(rng: &mut Rng, device: &Device, m: u8) -> Phrase {
    let owns = device.owner() == Some(m as usize);
    let connected = device.masters[m as usize].has(BUS_CONNECT);
    if owns && device.idle_count >= Kind::Pca9641.idle_ticks() && rng.percent(40) {
        // The idle timer is switched on when its time has already come, on one part at least.
        return write_register(rng, m, 1, &[0x21, 0x25]);
    }
    match rng.below(100) {
        0..=29 if !owns => request(rng, m),
        0..=9 => write_register(rng, m, 1, &[0x01, 0x05, 0x0D, 0x21, 0x25, 0x45, 0x4D, 0xFF]),
        10..=15 => release(rng, m),
        16..=29 if !connected => drive(rng, m),
        16..=29 => write_register(rng, m, 1, &[0x00, 0x01, 0x41, 0x09, 0x0D]),
        30..=41 => send_mail(rng, m),
        42..=51 => read_mail(rng, m),
        52..=59 => write_register(rng, m, 4, &[0x3F, 0x7F, 0x20, 0x10, 0x04, 0xFF]),
        60..=65 => write_register(rng, m, 5, &[0x00, 0x00, 0x3F, 0x40, 0x80, 0xFF]),
        66..=69 => write_register(rng, m, 3, &[0, 1, 2, 3, 7, 40, 255]),
        70..=75 => drive(rng, m),
        76..=83 => read_some(rng, m),
        84..=89 => burst(rng, m),
        90..=93 => bad_command(rng, m),
        94..=95 => vec![general_call(m, rng.byte())],
        96..=97 => soft_reset(rng, m),
        _ => vec![rng.pick(&[read(m), command(m, 0x81), command(m, 7), stop(m)])],
    }
}

/// A CONTR byte. Most requests also connect.
fn contr(rng: &mut Rng, request: bool) -> u8 {
    bit(rng.percent(50), PRIORITY)
        | bit(rng.percent(50), SMBUS_DIS)
        | bit(rng.percent(40), IDLE_TIMER_DIS)
        | bit(rng.percent(30), SMBUS_SWRST)
        | bit(rng.percent(40), BUS_INIT)
        | bit(rng.percent(65), BUS_CONNECT)
        | bit(rng.percent(20), LOCK_GRANT)
        | bit(request, LOCK_REQ)
}

fn request(rng: &mut Rng, m: u8) -> Phrase {
    let mut phrase = vec![];
    if rng.percent(70) {
        let reserve = match rng.below(10) {
            0..=4 => 0,
            5..=8 => rng.between(1, 5) as u8,
            _ => rng.between(6, 120) as u8,
        };
        phrase.extend([command(m, 3), write(m, reserve)]);
        if rng.percent(50) {
            phrase.push(stop(m));
        }
    }
    phrase.extend([command(m, 1), write(m, contr(rng, true))]);
    if rng.percent(10) {
        phrase.push(read(m));
    }
    phrase.push(stop(m));
    phrase
}

fn release(rng: &mut Rng, m: u8) -> Phrase {
    vec![command(m, 1), write(m, contr(rng, false)), stop(m)]
}

fn write_register(rng: &mut Rng, m: u8, pointer: u8, values: &[u8]) -> Phrase {
    vec![command(m, pointer), write(m, rng.pick(values)), stop(m)]
}

/// STATUS bytes: the drives and the test interrupt.
fn drive(rng: &mut Rng, m: u8) -> Phrase {
    let mut phrase = vec![command(m, 2)];
    for _ in 0..rng.between(1, 3) {
        phrase.push(write(m, rng.pick(&[0xC0, 0xC0, 0x40, 0x80, 0x00, 0x20, 0xE0])));
    }
    phrase.push(stop(m));
    phrase
}

fn send_mail(rng: &mut Rng, m: u8) -> Phrase {
    let mut phrase = match rng.below(3) {
        0 => vec![command(m, 6), write(m, rng.byte()), command(m, 7), write(m, rng.byte())],
        1 => vec![command(m, 0x86), write(m, rng.byte()), write(m, rng.byte())],
        _ => vec![command(m, 7), write(m, rng.byte())],
    };
    phrase.push(stop(m));
    phrase
}

fn read_mail(rng: &mut Rng, m: u8) -> Phrase {
    match rng.below(3) {
        0 => vec![command(m, 7), read(m), stop(m)],
        1 => vec![command(m, 0x86), read(m), read(m), stop(m)],
        _ => vec![command(m, 6), read(m), stop(m)],
    }
}

fn read_some(rng: &mut Rng, m: u8) -> Phrase {
    let mut phrase = vec![command(m, rng.pick(&[0x80, 0x84, 1, 2, 4, 5]))];
    for _ in 0..rng.between(1, 9) {
        phrase.push(read(m));
    }
    phrase.push(stop(m));
    phrase
}

/// Many bytes with auto-increment, often past register 7. Some go through all registers.
fn burst(rng: &mut Rng, m: u8) -> Phrase {
    let mut phrase = vec![command(m, 0x80 | rng.below(8) as u8)];
    let most = rng.pick(&[5, 5, 5, 12]);
    for _ in 0..rng.between(1, most) {
        phrase.push(write(m, rng.byte()));
    }
    phrase.push(stop(m));
    phrase
}

/// A COMMAND that is not acknowledged, and a byte that is then refused.
fn bad_command(rng: &mut Rng, m: u8) -> Phrase {
    let code = rng.byte() | rng.pick(&[0x08, 0x10, 0x20, 0x40]);
    vec![command(m, code), write(m, rng.byte()), read(m), stop(m)]
}

fn soft_reset(rng: &mut Rng, m: u8) -> Phrase {
    let request = rng.percent(50);
    let value = contr(rng, request) | bit(rng.percent(70), SMBUS_SWRST);
    vec![command(m, 1), write(m, value), general_call(m, 0x06)]
}

/// What both masters do at one instant.
pub fn joint_phrase(rng: &mut Rng) -> Phrase {
    match rng.below(4) {
        0 => both_request(rng),
        1 => mail_clash(rng),
        _ => any_pair(rng),
    }
}

/// Both let go, then both ask in one PAIR, so the winner table decides.
fn both_request(rng: &mut Rng) -> Phrase {
    let mut phrase = vec![command(0, 1), command(1, 1)];
    if rng.percent(80) {
        phrase.push(pair(contr(rng, false), contr(rng, false)));
    }
    phrase.push(pair(contr(rng, true), contr(rng, true)));
    let first = rng.below(2) as u8;
    phrase.extend([stop(first), stop(1 - first)]);
    phrase
}

/// One master clears its INT_STATUS bit 5 while the other fills its box.
fn mail_clash(rng: &mut Rng) -> Phrase {
    let m = rng.below(2) as u8;
    let values = if m == 0 { [0x20, rng.byte()] } else { [rng.byte(), 0x20] };
    vec![
        command(m, 7),
        read(m),
        command(m, 4),
        command(1 - m, 7),
        pair(values[0], values[1]),
        read(m),
        stop(0),
        stop(1),
    ]
}

fn any_pair(rng: &mut Rng) -> Phrase {
    let code = |rng: &mut Rng| rng.below(8) as u8 | rng.pick(&[0, 0x80]);
    let mut phrase = vec![command(0, code(rng)), command(1, code(rng))];
    for _ in 0..rng.between(1, 4) {
        phrase.push(pair(rng.byte(), rng.byte()));
    }
    phrase.extend([stop(0), stop(1)]);
    phrase
}
