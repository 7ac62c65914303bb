//! The standing device and its image (document 02, #108). The many cases are in `rust/compare`.

#![cfg(feature = "alloc")]

use gunwaleish::{
    boundary, run, write_trace, Device, Event, Ground, Master, Outcome, Part, Pins, Refusal,
    Register, IMAGE_LENGTH,
};

const M0: Master = Master::Zero;

/// Master 0 asks, with RT 2, and is granted the bus.
fn owned() -> Device {
    let mut device = Device::fresh(Part::Pca9641);
    for (register, value) in [(3, 2), (1, 0x05)] {
        device.step(Event::Command { master: M0, code: register });
        device.step(Event::Write { master: M0, value });
        device.step(Event::Stop { master: M0 });
    }
    device
}

/// M2: owner after one tick, lost at the second.
#[test]
fn a_device_stands_between_its_events() {
    let mut device = owned();
    let first = device.step(Event::Tick);
    assert_eq!((first.outcome, first.owner), (Outcome::Done, Some(M0)));
    assert_eq!((first.connected, first.ground), (Some(M0), Some(Ground::Sole)));
    assert_eq!(device.step(Event::Tick).owner, None);
}

/// The same answers as a trace of the same events.
#[test]
fn it_answers_as_a_trace_does() {
    let [go, tick, odd] = [[0, 1, 1, 0], [6, 0, 0, 0], [10, 1, 2, 3]];
    let events = [go, [1, 1, 0x05, 0], tick, odd, [3, 1, 0, 0], [3, 1, 0, 0], tick, [7, 1, 0, 0]];
    for part in Part::BOTH {
        let trace = write_trace(Pins::of_address(0x70).unwrap(), part, &events).unwrap();
        let mut device = Device::fresh(part);
        let answers: Vec<_> = events.iter().map(|&event| device.step(event)).collect();
        assert_eq!(answers, run(&trace).unwrap().answers);
    }
}

#[test]
fn registers_are_read_without_an_event() {
    let mut device = owned();
    device.step(Event::Command { master: M0, code: 7 });
    device.step(Event::Write { master: M0, value: 0x12 });
    let before = device.clone();
    let read = |master| Register::ALL.map(|register| device.read(master, register));
    assert_eq!(read(M0), [0x38, 0x07, 0xC0, 2, 0x04, 0x7F, 0, 0]);
    assert_eq!(read(Master::One), [0x38, 0, 0xD9, 0, 0x20, 0x7F, 0, 0x12]);
    assert_eq!(device, before);
    for (number, register) in (0..).zip(Register::ALL) {
        assert_eq!((register.number(), Register::of(number)), (number, Some(register)));
    }
    assert_eq!(Register::of(8), None);
    assert_eq!(Register::IntStatus.to_string(), "INT_STATUS");
}

/// The page's table: INT_MSK at 3 and 10, the five levels and drives from 21 on, the kind at 31.
#[test]
fn a_fresh_image_is_the_pages() {
    for part in Part::BOTH {
        let mut expected = [0; IMAGE_LENGTH];
        (expected[3], expected[10]) = (0x7F, 0x7F);
        expected[21..26].fill(1);
        expected[31] = part.number();
        assert_eq!(Device::fresh(part).image(), &expected);
    }
}

#[test]
fn an_image_is_taken_up_again() {
    let device = owned();
    assert_eq!(Device::from_image(device.image()), Ok(device.clone()));
    // The turn with its ground, the last granted, the switch: master 0 owns as sole requester.
    assert_eq!(device.image()[27..30], [7, 1, 1]);
}

#[test]
fn what_is_no_image_is_refused() {
    let image = *owned().image();
    for length in [0, 37, 39, 76] {
        let bytes: Vec<u8> = image.into_iter().cycle().take(length).collect();
        assert_eq!(Device::from_image(&bytes), Err(Refusal::OtherLength));
    }
    // The idle count of a TPT29641 goes up to 151.
    for (at, value) in [(0, 0x02), (17, 2), (20, 102), (27, 13), (31, 2), (37, 2)] {
        let mut damaged = image;
        damaged[at] = value;
        assert_eq!(Device::from_image(&damaged), Err(Refusal::ImageOutOfRange));
    }
    let mut second = *Device::fresh(Part::Tpt29641).image();
    second[20] = 102;
    assert!(Device::from_image(&second).is_ok());
    let lines = [Refusal::OtherLength, Refusal::ImageOutOfRange].map(|refusal| refusal.to_string());
    assert!(lines[0].starts_with("refusal 9: the image"), "{}", lines[0]);
    assert!(lines[1].starts_with("refusal 16: a field"), "{}", lines[1]);
}

/// The calls as C has them: refusals leave the buffer, 9 before 16, and 16 before the event's own.
#[test]
fn the_calls_on_a_lent_buffer() {
    let mut buffer = [0xFF; IMAGE_LENGTH + 1];
    let untouched = buffer;
    assert_eq!(boundary::image_fresh(0, &mut buffer), 9);
    assert_eq!(boundary::image_step([6, 0, 0, 0], &mut buffer), 9);
    assert_eq!(boundary::image_read(2, 8, &buffer), 9);
    let image = &mut buffer[..IMAGE_LENGTH];
    assert_eq!(boundary::image_step([10, 0, 0, 0], image), 16);
    assert_eq!(boundary::image_read(2, 8, image), 16);
    assert_eq!(boundary::image_fresh(2, image), 3);
    assert_eq!(buffer, untouched);
    let image = &mut buffer[..IMAGE_LENGTH];
    assert_eq!(boundary::image_fresh(1, image), 0);
    assert_eq!(boundary::image_step([10, 0, 0, 0], image), 0x0C00_0002);
    assert_eq!(boundary::image_read(0, 0, image), 0x3800);
    assert_eq!((boundary::image_read(2, 0, image), boundary::image_read(0, 8, image)), (3, 3));
    assert_eq!(image, Device::fresh(Part::Tpt29641).image());
    assert_eq!(buffer[IMAGE_LENGTH], 0xFF);
}
