//! The generator of bus captures and the listener, which share nothing but the setting: each holds the
//! other.

use model::capture::events_of;
use model::rng::Rng;
use model::wire::catalogue::glitched;
use model::wire::chip::flaws;
use model::wire::listen::{listen, Heard, Listener};
use model::wire::lists::reread;
use model::wire::play::{play, Scene};
use model::wire::random::{scene, Sort};
use model::wire::{Played, Setting};
use model::{Device, Kind};

const SORTS: [Sort; 3] = [Sort::Apart, Sort::Overlapping, Sort::Noisy];

/// The listener hears the capture's events, READs and faults, and no others.
fn assert_heard(played: &Played, what: &str) -> Heard {
    let heard = listen(played.setting, &played.samples);
    let parts = heard.events.iter().zip(&played.events).find(|(heard, meant)| heard != meant);
    assert_eq!(parts, None, "{what}: heard, and meant");
    assert_eq!(heard.events.len(), played.events.len(), "{what}");
    assert_eq!(heard.reads, played.reads, "{what}");
    assert_eq!(heard.faults, played.faults, "{what}");
    heard
}

/// What must have come for a test over seeds to have tried anything.
#[derive(Debug, Default)]
struct Seen {
    samples: usize,
    reads: usize,
    pairs: usize,
    lines_first: usize,
    tick_last: usize,
    read_and_tick: usize,
    overtaken: usize,
    faults: usize,
    resets: usize,
    refused: usize,
}

impl Seen {
    fn see(&mut self, played: &Played) {
        self.samples += played.samples.len();
        self.reads += played.reads.len();
        self.overtaken += played.reads.iter().filter(|read| read.overtaken).count();
        self.faults += played.faults.len();
        let kind = |kind: u8| played.events.iter().filter(move |(_, event)| event[0] == kind);
        self.pairs += kind(4).count();
        self.resets += kind(9).filter(|(_, event)| event[2] == 6).count();
        for two in played.events.windows(2).filter(|two| two[0].0 == two[1].0) {
            let kinds = (two[0].1[0], two[1].1[0]);
            self.lines_first += usize::from(kinds.0 == 5 && kinds.1 != 6);
            self.tick_last += usize::from(kinds.0 != 5 && kinds.1 == 6);
            self.read_and_tick += usize::from(kinds == (2, 6));
        }
        let mut device = Device::power_up_of(played.setting.kind);
        for (_, event) in &played.events {
            let answer = device.step(*event);
            assert_eq!(answer[2] & 0x10, 0, "an initialisation, which needs PULSEs");
            self.refused += usize::from(answer[0] == 4);
        }
    }
}

#[test]
fn the_listener_hears_what_was_played() {
    let mut seen = Seen::default();
    for seed in 0..150 {
        for sort in SORTS {
            let played = play(&scene(sort, seed));
            let heard = assert_heard(&played, &format!("{sort:?} {seed}"));
            assert_eq!(heard.first_wrong(), None, "{sort:?} {seed}: a right chip is accused");
            let right = played.reads.iter().all(|read| read.heard == read.expected);
            assert!(right || sort == Sort::Overlapping, "{sort:?} {seed}: reads are not apart");
            seen.see(&played);
        }
    }
    println!("{seen:?}");
    let Seen { reads, pairs, lines_first, tick_last, read_and_tick, .. } = seen;
    assert!([reads / 100, pairs, lines_first, tick_last, read_and_tick].iter().all(|n| *n > 100));
    assert!([seen.overtaken, seen.faults, seen.resets, seen.refused].iter().all(|n| *n > 50));
}

/// A capture of right transfers is one that the importer of #104 takes, with the same events, those of
/// the lines and ticks apart.
#[test]
fn the_importer_takes_the_same_events() {
    let mut imported = 0;
    for seed in 0..100 {
        let played = play(&scene(Sort::Apart, seed));
        if played.samples.len() > 32_768 {
            continue;
        }
        let upstream = |(_, event): &(u64, [u8; 4])| !matches!(event[0], 5 | 6);
        let events: Vec<[u8; 4]> =
            played.events.iter().filter(|event| upstream(event)).map(|(_, event)| *event).collect();
        assert_eq!(events_of(&played.samples, played.setting.address), Ok(events), "{seed}");
        imported += 1;
    }
    assert!(imported > 50, "{imported} of 100 are short enough");
}

/// The samples come in chunks of any size, empty ones too.
#[test]
fn chunks_do_not_matter() {
    for seed in 0..30 {
        for sort in SORTS {
            let played = play(&scene(sort, seed));
            let whole = listen(played.setting, &played.samples);
            let mut rng = Rng::new(seed);
            let mut listener = Listener::new(played.setting, true);
            let mut heard = Heard::default();
            let mut rest = &played.samples[..];
            let most = rng.pick(&[1, 2, 7, 100, 5000]);
            while !rest.is_empty() {
                let (chunk, later) = rest.split_at((rng.between(0, most) as usize).min(rest.len()));
                heard.take(listener.hear(chunk));
                rest = later;
            }
            assert_eq!(heard, whole, "{sort:?} {seed}");
        }
    }
}

/// A capture that ends anywhere gives what came before, and the listener knows if that is inside a
/// byte, which #104 refuses.
#[test]
fn cut_anywhere() {
    let mut inside = 0;
    for seed in 0..100 {
        let mut rng = Rng::new(seed);
        let whole = play(&scene(Sort::Apart, seed));
        let cut = whole.cut(rng.below(whole.samples.len().min(32_768) as u64) as usize);
        assert_heard(&cut, &format!("{seed}"));
        let mut listener = Listener::new(cut.setting, true);
        listener.hear(&cut.samples);
        let refused = events_of(&cut.samples, cut.setting.address) == Err(12);
        assert_eq!(listener.ends_inside().contains(&true), refused, "{seed}");
        inside += usize::from(refused);
    }
    assert!(inside > 20 && inside < 80, "{inside} of 100 end inside a byte");
}

/// The second reader, which goes list by list, finds all that was played.
#[test]
fn the_second_reader_finds_what_was_played() {
    for seed in 0..50 {
        for sort in SORTS {
            let played = play(&scene(sort, seed));
            assert_eq!(reread(played.setting, &played.samples), played, "{sort:?} {seed}");
        }
    }
}

#[test]
fn glitches_are_heard_as_the_second_reader_finds_them() {
    let (mut faults, mut wrong, mut overtaken) = (0, 0, 0);
    for seed in 0..150 {
        let noisy = glitched(seed);
        assert_heard(&noisy, &format!("{seed}"));
        faults += noisy.faults.len();
        wrong += noisy.reads.iter().filter(|read| read.is_wrong()).count();
        overtaken += noisy.reads.iter().filter(|read| read.overtaken).count();
    }
    println!("glitches: {faults} faults, {wrong} READs wrong, {overtaken} overtaken");
    assert!(faults > 100 && wrong > 50 && overtaken > 0);
}

/// One more sample of lines that nobody drives in a sensible way: a line moves at a time, all move at
/// once, or clocks run with any bits and now and then SDA moves while SCL is high.
fn stray(rng: &mut Rng, way: u64, sample: u8) -> u8 {
    let bus = 2 * rng.below(2);
    match way {
        0 => sample ^ 1 << rng.pick(&[0, 0, 0, 0, 2, 2, 2, 2, 1, 3, 4, 5, 6, 7]),
        1 => rng.byte() | rng.byte(),
        _ if rng.percent(2) => sample ^ 2 << bus,
        _ if rng.percent(1) => sample ^ rng.byte() & 0xF0,
        _ if sample >> bus & 1 == 0 => sample ^ 1 << bus,
        _ => (sample ^ 1 << bus) & !(2 << bus) | (rng.below(2) as u8) << (bus + 1),
    }
}

#[test]
fn any_samples_are_heard_as_the_second_reader_finds_them() {
    let mut found = [0; 10];
    let mut faults = 0;
    for seed in 0..150 {
        let mut rng = Rng::new(seed);
        let address = rng.between(0x08, 0x77) as u8;
        let samples_per_tick = rng.between(1, 50);
        let setting = Setting { address, kind: Kind::Pca9641, samples_per_tick };
        let mut samples = vec![rng.byte()];
        for place in 0..20_000 {
            samples.push(stray(&mut rng, seed % 3, samples[place]));
        }
        let heard = assert_heard(&reread(setting, &samples), &format!("{seed}"));
        heard.events.iter().for_each(|(_, event)| found[usize::from(event[0])] += 1);
        faults += heard.faults.len();
    }
    println!("kinds of event found: {found:?}; {faults} faults");
    assert!([0, 1, 2, 3, 5, 6, 9].iter().all(|kind| found[*kind] > 10), "{found:?}");
    assert!(faults > 1000, "{faults} faults");
}

/// A right chip whose milliseconds end later than the listener's: it is heard as it was played, and now
/// and then accused, for an answer that is right one TICK before. Whoever judges a real chip has to
/// know that.
#[test]
fn a_right_chip_with_its_own_milliseconds() {
    let (mut accused, mut wrong, mut reads) = (0, 0, 0);
    for seed in 0..300 {
        let played = play(&scene(Sort::Phased, seed));
        assert_heard(&played, &format!("{seed}"));
        accused += usize::from(played.first_wrong().is_some());
        wrong += played.reads.iter().filter(|read| read.is_wrong()).count();
        reads += played.reads.len();
    }
    println!("own milliseconds: {accused} of 300 accused, {wrong} of {reads} READs");
    assert!(accused > 10 && accused < 290 && 5 * wrong < reads);
}

/// A chip that errs in a random capture is found where the generator knows it to be, with reads apart
/// and overlapping.
#[test]
fn chips_that_err_are_found_in_random_captures() {
    let all = flaws();
    let (mut shown, mut hidden) = (0, 0);
    for seed in 0..200 {
        let flaw = all[seed as usize % all.len()];
        for sort in SORTS {
            let played = play(&Scene { flaw, ..scene(sort, seed) });
            let heard = assert_heard(&played, &format!("{flaw:?} {sort:?} {seed}"));
            assert_eq!(heard.first_wrong(), played.first_wrong(), "{flaw:?} {sort:?} {seed}");
            match heard.first_wrong() {
                Some(_) => shown += 1,
                None => hidden += 1,
            }
        }
    }
    println!("{shown} shown, {hidden} hidden");
    assert!(shown > 200 && hidden > 50, "{shown} shown, {hidden} hidden");
}
