//! A listener on both upstream buses: what it is told, what it counts, and what it refuses.

use gunwaleish::{
    boundary, Device, Event, Master, Part, Refusal, Register, Watch, WatchSettings, WATCH_LENGTH,
};

const SETTINGS: WatchSettings =
    WatchSettings { part: Part::Tpt29641, address: 0x71, every: 50, below: true };

fn fresh() -> Watch {
    Watch::fresh(SETTINGS).unwrap()
}

/// One bus, drawn with a level a sample; the other one and the bus below rest.
struct Bus {
    master: Master,
    samples: Vec<u8>,
}

impl Bus {
    fn new(master: Master) -> Bus {
        Bus { master, samples: vec![0x7F] }
    }

    fn level(&mut self, scl: u8, sda: u8) {
        let shift = 2 * self.master.number();
        self.samples.push(0x7F & !(3 << shift) | (scl | sda << 1) << shift);
    }

    fn start(&mut self) {
        self.level(1, 0);
        self.level(0, 0);
    }

    fn byte(&mut self, byte: u8) {
        for bit in (0..8).rev().map(|place| byte >> place & 1).chain([0]) {
            [(0, bit), (1, bit), (0, bit)].into_iter().for_each(|(scl, sda)| self.level(scl, sda));
        }
    }

    fn stop(&mut self) {
        [(0, 0), (1, 0), (1, 1)].into_iter().for_each(|(scl, sda)| self.level(scl, sda));
    }
}

/// CONTR is written with 05h, and then read with this answer.
fn asks(master: Master, answer: u8) -> Vec<u8> {
    let mut bus = Bus::new(master);
    bus.start();
    [0xE2, 0x01, 0x05].into_iter().for_each(|byte| bus.byte(byte));
    bus.stop();
    bus.start();
    [0xE3, answer].into_iter().for_each(|byte| bus.byte(byte));
    bus.stop();
    bus.samples
}

/// All samples, however often it stops.
fn listen(watch: &mut Watch, samples: &[u8]) -> usize {
    let (mut rest, mut stops) = (samples, 0);
    while !rest.is_empty() {
        let taken = watch.listen(rest);
        assert!((1..=rest.len()).contains(&taken));
        stops += usize::from(taken < rest.len());
        rest = &rest[taken..];
    }
    stops
}

#[test]
fn it_is_told_its_settings() {
    let watch = fresh();
    assert_eq!(
        (watch.settings(), watch.image()),
        (SETTINGS, Device::fresh(Part::Tpt29641).image())
    );
    let counts =
        [watch.samples(), watch.events(), watch.reads(), watch.differences(), watch.faults()];
    assert_eq!(counts, [0; 5]);
    assert_eq!((watch.first_difference(), watch.first_fault()), (None, None));
    assert_eq!(Master::BOTH.map(|master| watch.last_read(master)), [None; 2]);
    let longest = WatchSettings { every: u32::MAX, below: false, ..SETTINGS };
    assert_eq!(Watch::fresh(longest).unwrap().settings(), longest);
}

#[test]
fn each_read_is_held_against_the_model() {
    for master in Master::BOTH {
        let mut right = fresh();
        assert_eq!(listen(&mut right, &asks(master, 0x07)), 0);
        assert_eq!((right.reads(), right.differences()), (1, 0));
        let read = right.last_read(master).unwrap();
        assert_eq!((read.register, read.heard, read.differs()), (Register::Contr, 0x07, false));
        assert_eq!((read.master, right.last_read(master.partner())), (master, None));
        let mut wrong = fresh();
        let samples = asks(master, 0x05);
        assert_eq!(listen(&mut wrong, &samples), 1);
        let check = wrong.first_difference().unwrap();
        assert_eq!((check.heard, check.expected, wrong.differences()), (0x05, 0x07, 1));
        assert_eq!(samples[check.sample as usize] >> (2 * master.number()) & 1, 1);
        // The device is the run of the events, whatever was heard; 50 samples are a TICK.
        assert_eq!(wrong.image(), right.image());
        let mut device = Device::fresh(Part::Tpt29641);
        for value in [Event::Command { master, code: 1 }, Event::Write { master, value: 0x05 }] {
            device.step(value);
        }
        let events = [Event::Stop { master }, Event::Read { master }, Event::Stop { master }];
        events.into_iter().for_each(|event| {
            device.step(event);
        });
        let ticks = (samples.len() as u64 - 1) / 50;
        assert_eq!(wrong.events(), 5 + ticks);
        assert_eq!(
            wrong.device().read(master, Register::Contr),
            device.read(master, Register::Contr)
        );
    }
}

#[test]
fn pieces_play_no_part() {
    let mut samples = [asks(Master::Zero, 0x03), asks(Master::One, 0x07), vec![0x3F; 70]].concat();
    // A START inside a byte, and lines below that move.
    samples.extend([0x7F, 0x7D, 0x7C, 0x7D, 0x7C, 0x7D, 0x7C, 0x7E, 0x7F, 0x7D, 0x4F, 0x7F]);
    let mut whole = fresh();
    assert_eq!(listen(&mut whole, &samples), 3);
    assert_eq!(
        (whole.differences(), whole.faults(), whole.samples()),
        (2, 1, samples.len() as u64)
    );
    let fault = whole.first_fault().unwrap() as usize;
    assert_eq!(samples[fault - 1..=fault], [0x7F, 0x7D]);
    for length in [1, 2, 3, 50, 51, 1000] {
        let mut pieces = fresh();
        samples.chunks(length).for_each(|piece| {
            listen(&mut pieces, piece);
            pieces = Watch::from_bytes(pieces.bytes()).unwrap();
        });
        assert_eq!(pieces, whole, "{length}");
    }
    assert_eq!(whole.listen(&[]), 0);
}

/// It goes on with another device, and with all else as it was.
#[test]
fn another_device() {
    let mut watch = fresh();
    listen(&mut watch, &asks(Master::Zero, 0x07));
    let mut device = watch.device();
    device.step(Event::Reset);
    watch.go_on_with(&device);
    assert_eq!((watch.device(), watch.settings(), watch.reads()), (device, SETTINGS, 1));
    assert_eq!(Watch::from_bytes(watch.bytes()), Ok(watch));
}

#[test]
fn what_is_refused_leaves_the_buffer() {
    for address in [0x00, 0x07, 0x78, 0x80, 0xFF] {
        let none = Watch::fresh(WatchSettings { address, ..SETTINGS });
        assert_eq!(none, Err(Refusal::AddressOutside), "{address:02X}h");
    }
    for address in [0x08, 0x77] {
        assert!(Watch::fresh(WatchSettings { address, ..SETTINGS }).is_ok());
    }
    let cases = [
        (2, 0x71, 0, 142, 3),
        (0, 0x71, 2, 142, 3),
        (0, 0x78, 0, 142, 11),
        (2, 0x78, 2, 142, 3),
        (0, 0x71, 0, 141, 9),
        (2, 0x78, 0, 143, 9),
    ];
    for (kind, address, below, length, number) in cases {
        let mut buffer = vec![0xA5; length];
        assert_eq!(boundary::watch_fresh(kind, address, 50, below, &mut buffer), number);
        assert!(buffer.iter().all(|byte| *byte == 0xA5));
    }
}

#[test]
fn bytes_that_are_no_listener_are_refused() {
    let good = *fresh().bytes();
    for bytes in [&good[1..], &[&good[..], &[0]].concat(), &[]] {
        assert_eq!(Watch::from_bytes(bytes), Err(Refusal::OtherWatchLength));
        let mut buffer = bytes.to_vec();
        assert_ne!(boundary::watch_listen(&[0x7F; 9], &mut buffer), 0);
        assert_eq!(buffer, bytes);
    }
    // A kind of part that there is not, and flags, awaited bytes, masters and registers that are none.
    let outside = [
        (31, 2),
        (43, 2),
        (44, 2),
        (50, 7),
        (54, 7),
        (53, 2),
        (57, 2),
        (114, 2),
        (127, 8),
        (139, 8),
    ];
    for (place, value) in outside {
        let mut damaged = good;
        damaged[place] = value;
        assert_eq!(Watch::from_bytes(&damaged), Err(Refusal::WatchOutOfRange), "{place}");
        let mut buffer = damaged;
        assert_eq!(boundary::watch_listen(&[0x7F; 9], &mut buffer) as u8, 16);
        assert_eq!(buffer, damaged);
    }
    assert_eq!(good.len(), WATCH_LENGTH);
    for refusal in [Refusal::OtherWatchLength, Refusal::WatchOutOfRange] {
        assert!(refusal.to_string().contains(" a listener has 142") || refusal.number() == 16);
    }
}
