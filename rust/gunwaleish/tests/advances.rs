//! An advance of a standing device over quiet time (document 02, #113).

use gunwaleish::{boundary, Device, Event, Master, Part, Refusal, IMAGE_LENGTH, MOST_TICKS};

const M0: Master = Master::Zero;

/// Writes these bytes to these registers.
fn written(writes: &[(Master, u8, u8)]) -> Device {
    let mut device = Device::fresh(Part::Pca9641);
    for &(master, register, value) in writes {
        device.step(Event::Command { master, code: register });
        device.step(Event::Write { master, value });
        device.step(Event::Stop { master });
    }
    device
}

/// Fresh; owned without a reserve; two with a reserve one after the other; with the idle timer; SCL low.
fn devices() -> Vec<Device> {
    let m1 = Master::One;
    let mut hung = written(&[(M0, 1, 0x45)]);
    hung.step(Event::Lines { scl: false, sda: true, int_in: true });
    vec![
        Device::fresh(Part::Tpt29641),
        written(&[(M0, 1, 0x05)]),
        written(&[(M0, 3, 20), (m1, 3, 7), (M0, 1, 0x05), (m1, 1, 0x05)]),
        written(&[(M0, 1, 0x21), (m1, 1, 0x21)]),
        hung,
    ]
}

#[test]
fn an_advance_is_as_many_ticks() {
    for device in devices() {
        let mut stepped = device.clone();
        for ticks in 0..700 {
            let mut jumped = device.clone();
            let changed = jumped.advance(ticks).unwrap();
            assert_eq!(jumped, stepped, "{ticks} ticks");
            assert!(changed <= 6);
            stepped.step(Event::Tick);
        }
    }
}

#[test]
fn the_most_ticks_are_as_many_ticks() {
    for device in devices() {
        let (mut jumped, mut stepped) = (device.clone(), device);
        jumped.advance(MOST_TICKS).unwrap();
        for _ in 0..MOST_TICKS {
            stepped.step(Event::Tick);
        }
        assert_eq!(jumped, stepped);
    }
}

#[test]
fn it_tells_the_ticks_that_change_something() {
    let [fresh, owned, reserved, idle, hung] = <[Device; 5]>::try_from(devices()).unwrap();
    let told = |device: &Device, ticks| device.clone().advance(ticks).unwrap();
    assert_eq!((told(&fresh, MOST_TICKS), told(&owned, MOST_TICKS)), (0, 0));
    // Master 0 loses the bus to master 1 when its reserve is over, and master 1 when its own is.
    assert_eq!((told(&reserved, 19), told(&reserved, 20), told(&reserved, 700)), (0, 1, 2));
    assert_eq!((told(&idle, 100), told(&idle, 101), told(&idle, MOST_TICKS)), (0, 1, 2));
    // The owner is cut off at 35 ticks of a low SCL, and the bus is hung at 500.
    assert_eq!((told(&hung, 34), told(&hung, 35), told(&hung, 500)), (0, 1, 2));
}

#[test]
fn none_changes_nothing_and_too_many_are_refused() {
    for device in devices() {
        let mut same = device.clone();
        assert_eq!(same.advance(0), Ok(0));
        for past in [MOST_TICKS + 1, 1 << 16 | 5, u32::MAX] {
            assert_eq!(same.advance(past), Err(Refusal::TooManyTicks));
        }
        assert_eq!(same, device);
    }
}

#[test]
fn what_is_no_image_is_refused_first() {
    let image = *Device::fresh(Part::Pca9641).image();
    for length in [0, 1, 37, 39] {
        let mut other = vec![0; length];
        assert_eq!(boundary::image_advance(u32::MAX, &mut other), 9);
        assert_eq!(other, vec![0; length]);
    }
    let mut damaged = image;
    damaged[IMAGE_LENGTH - 1] = 2;
    let before = damaged;
    assert_eq!(boundary::image_advance(u32::MAX, &mut damaged), 16);
    assert_eq!(damaged, before);
    assert_eq!(boundary::image_advance(u32::MAX, &mut { image }), 3);
}

/// The header, this crate and the pages say the same of an advance: three ticks at most, as is proved.
#[test]
fn the_pages_say_three() {
    let places = [
        ("c/gunwaleish.h", "from any state that a run reaches these are at most three."),
        ("rust/gunwaleish/src/device.rs", "at most three, from any state that a run reaches."),
        (
            "docs/IMAGE.md",
            "of an image out of a run at most three of its ticks change more than counts",
        ),
        ("README.md", "reports how many changed more than counts; that these are three at most"),
        ("rust/README.md", "may not be above three for an image out of a run"),
    ];
    for (file, words) in places {
        let path = format!("{}/../../{file}", env!("CARGO_MANIFEST_DIR"));
        let text = std::fs::read_to_string(path).unwrap();
        let text = text.split_whitespace().collect::<Vec<_>>().join(" ");
        assert!(text.contains(words), "{file}: {words}");
    }
}
