//! Small helpers that all test files share.
#![allow(dead_code)]

pub use model::event::make::*;
pub use model::{Device, Kind};

pub mod stalled;

/// Steps all events, each of which must be done (outcome 0). Gives the last answer.
pub fn run(device: &mut Device, events: &[[u8; 4]]) -> [u8; 4] {
    let mut answer = [0; 4];
    for event in events {
        answer = device.step(*event);
        assert_eq!(answer[0], 0, "{event:?} answered {answer:02X?}");
    }
    answer
}

pub fn ticks(device: &mut Device, count: usize) -> [u8; 4] {
    run(device, &vec![tick(); count])
}

/// COMMAND, WRITE and STOP of one register.
pub fn set(device: &mut Device, m: u8, register: u8, value: u8) -> [u8; 4] {
    run(device, &[command(m, register), write(m, value), stop(m)])
}

/// COMMAND, READ and STOP of one register. Gives the byte.
pub fn get(device: &mut Device, m: u8, register: u8) -> u8 {
    run(device, &[command(m, register)]);
    let byte = run(device, &[read(m)])[1];
    run(device, &[stop(m)]);
    byte
}

/// A fresh device on which master m took the bus with this RT and CONTR.
pub fn owned_by(m: u8, rt: u8, contr: u8) -> Device {
    owned_by_on(Kind::Pca9641, m, rt, contr)
}

/// The same on a fresh part of this kind.
pub fn owned_by_on(kind: Kind, m: u8, rt: u8, contr: u8) -> Device {
    let mut device = Device::power_up_of(kind);
    set(&mut device, m, 3, rt);
    let answer = set(&mut device, m, 1, contr);
    assert_eq!(owner(answer), Some(m));
    device
}

/// Answer byte 2, bits 0 and 1.
pub fn owner(answer: [u8; 4]) -> Option<u8> {
    [None, Some(0), Some(1)][(answer[2] & 3) as usize]
}

/// Answer byte 2, bits 2 and 3.
pub fn switch(answer: [u8; 4]) -> Option<u8> {
    [None, Some(0), Some(1)][((answer[2] >> 2) & 3) as usize]
}

/// Answer byte 2, bit 4.
pub fn initialising(answer: [u8; 4]) -> bool {
    answer[2] & 0x10 != 0
}

/// Answer byte 2, bits 5 and 6.
pub fn ground(answer: [u8; 4]) -> u8 {
    answer[2] >> 5
}

/// Answer byte 3, bits 2 and 3: SCL and SDA.
pub fn scl_sda(answer: [u8; 4]) -> (u8, u8) {
    ((answer[3] >> 2) & 1, (answer[3] >> 3) & 1)
}

/// An event with no effect, to see the answer bytes of the device as it is.
pub fn look(device: &Device) -> [u8; 4] {
    device.clone().step([255, 0, 0, 0])
}

/// A pair of sheets out of the values of all boxes, those of controller 0 first: the board sheet ticks
/// every box, the house sheet none.
pub fn sheets_of(reserves: [u8; 2], priorities: [u8; 2], idles: [u8; 2]) -> [Vec<u8>; 2] {
    let section = |[v0, v1]: [u8; 2]| [2, 1, v0, 1, v1];
    let board = [reserves, priorities, idles].map(section).concat();
    [board, [2, 0, 0, 0, 0].repeat(3)]
}

/// The twelve events of those sheets, six for each controller.
pub fn starts_of(reserves: [u8; 2], priorities: [u8; 2], idles: [u8; 2]) -> [Vec<[u8; 4]>; 2] {
    let [board, house] = sheets_of(reserves, priorities, idles);
    let events = model::sheet::events_of_sheets(&board, &house).expect("the pair is complete");
    [events[..6].to_vec(), events[6..].to_vec()]
}

/// A fresh part of this kind after both starts, that of this controller first.
pub fn started(kind: Kind, first: usize, starts: &[Vec<[u8; 4]>; 2]) -> Device {
    let mut device = Device::power_up_of(kind);
    run(&mut device, &starts[first]);
    let answer = run(&mut device, &starts[1 - first]);
    assert_eq!(owner(answer), Some(first as u8));
    device
}
