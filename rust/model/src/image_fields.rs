//! The numbers that the fields of an image have, row by row of docs/IMAGE.md's table, and the device
//! that has them. "Registers as stored: computed bits are not in the image."

use crate::claimant::{Claim, Ground};
use crate::device::*;
use crate::part::Kind;

const GROUNDS: [Ground; 3] = [Ground::SoleRequester, Ground::Priority, Ground::LastGranted];
const PORTS: [Port; 3] = [Port::AtRest, Port::Open, Port::OpenForWriting];
/// An initialisation has had 0 to 8 PULSE of 0.
const PULSES: i64 = 9;

/// The number of each field, in the table's order.
pub fn numbers_of(device: &Device) -> Vec<i64> {
    let mut numbers = vec![];
    for own in &device.masters {
        numbers.extend([own.contr, own.rt, own.int_status, own.int_msk].map(i64::from));
        numbers.extend([own.mail_low, own.mail_high].map(i64::from));
        numbers.push(i64::from(own.mail_full));
    }
    numbers.extend([device.reserve_count, device.hold]);
    numbers.extend([device.scl_low_count, device.sda_low_count, device.idle_count]);
    let Levels { scl, sda } = device.outside;
    numbers.extend([scl, sda, device.int_in].map(i64::from));
    let Levels { scl, sda } = device.drives;
    numbers.extend([scl, sda, device.busy].map(i64::from));
    let last = device.last_granted.map_or(0, |m| 1 + m as i64);
    numbers.extend([turn_number(device), last, switch_number(device.switch)]);
    numbers.extend([i64::from(device.bus_init_fail), i64::from(device.kind.number())]);
    for own in &device.masters {
        numbers.push(place(&PORTS, &own.port));
        numbers.extend([i64::from(own.pointer), i64::from(own.auto_increment)]);
    }
    numbers
}

/// "0 nobody; 1 to 3 master 0 claims, 4 to 6 master 1 claims, 7 to 9 master 0 owns, 10 to 12 master 1
/// owns: as sole requester, by priority, as not the last granted".
fn turn_number(device: &Device) -> i64 {
    let Some(Claim { master, ground }) = device.claim else {
        return 0;
    };
    let owns = i64::from(device.owner() == Some(master));
    1 + place(&GROUNDS, &ground) + 3 * master as i64 + 6 * owns
}

/// "0 apart; 1 closed for master 0, 2 for master 1; 3 to 11 initialising for master 0 after 0 to 8
/// PULSEs of 0, 12 to 20 for master 1".
fn switch_number(switch: Switch) -> i64 {
    match switch {
        Switch::Apart => 0,
        Switch::Closed(m) => 1 + m as i64,
        Switch::Initialising { master, zeros } => 3 + PULSES * master as i64 + zeros,
    }
}

fn place<T: PartialEq>(all: &[T], one: &T) -> i64 {
    all.iter().take_while(|other| *other != one).count() as i64
}

/// The device whose fields have these numbers. They are in their ranges.
pub fn device_of(numbers: &[i64]) -> Device {
    let mut numbers = numbers.iter().copied();
    let mut next = || numbers.next().unwrap_or_default();
    let mut device = Device::power_up();
    for own in &mut device.masters {
        (own.contr, own.rt) = (next() as u8, next() as u8);
        (own.int_status, own.int_msk) = (next() as u8, next() as u8);
        (own.mail_low, own.mail_high) = (next() as u8, next() as u8);
        own.mail_full = next() == 1;
    }
    (device.reserve_count, device.hold) = (next(), next());
    (device.scl_low_count, device.sda_low_count, device.idle_count) = (next(), next(), next());
    device.outside = Levels { scl: next() == 1, sda: next() == 1 };
    device.int_in = next() == 1;
    device.drives = Levels { scl: next() == 1, sda: next() == 1 };
    device.busy = next() == 1;
    take_turn(&mut device, next());
    device.last_granted = [None, Some(0), Some(1)][next() as usize];
    device.switch = switch_of(next());
    device.bus_init_fail = next() == 1;
    device.kind = Kind::of(next() as u8).unwrap_or(Kind::Pca9641);
    for own in &mut device.masters {
        own.port = PORTS[next() as usize];
        (own.pointer, own.auto_increment) = (next() as u8, next() == 1);
    }
    device
}

/// Who claims or owns, by the turn's number. A grant's reserve is not in the image: it was RT at the
/// grant, and RT is "not stored" while granted, so it is RT now.
fn take_turn(device: &mut Device, turn: i64) {
    device.claim = None;
    device.grant = None;
    if turn == 0 {
        return;
    }
    let at = (turn - 1) as usize;
    let master = at / 3 % 2;
    device.claim = Some(Claim { master, ground: GROUNDS[at % 3] });
    if at >= 6 {
        let reserve = i64::from(device.masters[master].rt);
        device.grant = Some(Grant { owner: master, reserve });
    }
}

fn switch_of(number: i64) -> Switch {
    match number {
        0 => Switch::Apart,
        1 | 2 => Switch::Closed((number - 1) as usize),
        _ => Switch::Initialising {
            master: ((number - 3) / PULSES) as usize,
            zeros: (number - 3) % PULSES,
        },
    }
}
