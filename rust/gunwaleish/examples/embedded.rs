//! What the firmware of a shelf's microcontroller does: it keeps the arbiter as a device of 38 bytes, without the standard library
//! and without an allocator.
//!
//! In the firmware's manifest stands `gunwaleish = { path = "rust/gunwaleish", default-features = false }`, and while it is built
//! GUNWALEISH_LIB_DIR names the folder of the library for its processor. Here the same code is run on this machine:
//! `cargo run --release --offline --manifest-path rust/gunwaleish/Cargo.toml --no-default-features --example embedded`

#![no_std]

// For this machine alone: a firmware has a loop of its own in the place of `main`, and no lines to print.
extern crate std;

use gunwaleish::{
    library_version, Device, Event, Master, Part, Refusal, Register, IMAGE_LENGTH, VERSION,
};
use std::println;

/// What the firmware keeps over a reset of its own, in memory that is not cleared.
type Kept = [u8; IMAGE_LENGTH];

/// The device that was kept, or a fresh one where the bytes are none: after power-up, or where something else wrote there.
fn taken_up(kept: &Kept) -> (Device, Option<Refusal>) {
    match Device::from_image(kept) {
        Ok(device) => (device, None),
        Err(refusal) => (Device::fresh(Part::Pca9641), Some(refusal)),
    }
}

/// A register written, by three events. The STOP belongs to it: before it no claim is granted.
fn write(device: &mut Device, master: Master, register: Register, value: u8) -> Option<Master> {
    device.step(Event::Command { master, code: register.number() });
    device.step(Event::Write { master, value });
    device.step(Event::Stop { master }).owner
}

/// Controller 0 asks with a reserve in ms, and then controller 1; the bus passes on when the reserve is over.
fn serve(device: &mut Device, reserve: u8) -> Result<[Option<Master>; 3], Refusal> {
    let mut owners = [None; 3];
    write(device, Master::Zero, Register::Rt, reserve);
    owners[0] = write(device, Master::Zero, Register::Contr, 0x05);
    owners[1] = write(device, Master::One, Register::Contr, 0x05);
    // A timer of the firmware's wakes it: quiet time is taken at once, and costs no loop.
    device.advance(u32::from(reserve) - 1)?;
    owners[2] = device.step(Event::Tick).owner;
    Ok(owners)
}

fn main() {
    println!("gunwaleish {VERSION} over the library {}", library_version());
    let (mut device, refusal) = taken_up(&[0xFF; IMAGE_LENGTH]);
    println!("after power-up: {}", refusal.map_or(0, Refusal::number));
    match serve(&mut device, 50) {
        Ok(owners) => println!("owners: {owners:?}"),
        Err(refusal) => println!("{refusal}"),
    }
    let (again, refusal) = taken_up(device.image());
    println!("taken up again: {}, refused: {refusal:?}", again == device);
}
