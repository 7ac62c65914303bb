//! A watched bus, held to the independent generator: what it plays is told, no less and no more, whether
//! the chip is right or errs, whatever noise there is, and however the samples come.

mod watched;

use gunwaleish::{write_trace, Device, Event, Master, Part, Pins, Register, Totals};
use gunwaleish_tool::watch::resync::resync;
use gunwaleish_tool::watch::waits::waits;
use gunwaleish_tool::watch::{summary, words, Finding, Found, Wanted};
use model::part::BOTH_KINDS;
use model::rng::Rng;
use model::wire::catalogue::glitched;
use model::wire::chip::flaws;
use model::wire::formats::{csv, vcd};
use model::wire::play::{play, Scene};
use model::wire::random::{scene, Sort};
use model::wire::script::set;
use model::wire::stories::{stories, Story};
use model::wire::{Flaw, Played};
use model::Kind;
use watched::{part, told, wanted, watch, watch_as, watch_bytes, Watched};

const SORTS: [Sort; 3] = [Sort::Apart, Sort::Overlapping, Sort::Noisy];

/// All that is true of a capture was found in it.
fn assert_found(played: &Played, watched: &Watched, what: &str) {
    let listener = &watched.state.watch;
    let counts = (listener.samples(), listener.events(), listener.reads(), listener.faults());
    let true_counts =
        (played.samples.len(), played.events.len(), played.reads.len(), played.faults.len());
    let (a, b, c, d) = true_counts;
    assert_eq!(counts, (a as u64, b as u64, c as u64, d as u64), "{what}");
    assert_eq!(watched.reads(), told(played), "{what}");
    let mut faults: Vec<u64> = played.faults.iter().map(|fault| fault.sample).collect();
    faults.dedup();
    assert_eq!(watched.faults(), faults, "{what}");
    let wrong = played.reads.iter().filter(|read| read.is_wrong()).count() as u64;
    assert_eq!((watched.state.differences, watched.state.is_wrong()), (wrong, wrong > 0), "{what}");
    let first = watched.state.first.map(|check| check.sample);
    assert_eq!(first, played.first_wrong(), "{what}");
    // The device is the run of the events.
    let mut device = Device::fresh(part(played.setting.kind));
    played.events.iter().for_each(|(_, event)| {
        device.step(*event);
    });
    assert_eq!(listener.image(), device.image(), "{what}");
}

#[test]
fn right_chips_are_not_accused() {
    let (mut reads, mut overtaken) = (0, 0);
    for story in stories() {
        for kind in BOTH_KINDS {
            let played = play(&story.scene(kind, Flaw::None, 14));
            let watched = watch(&played, 5000);
            assert_found(&played, &watched, story.name);
            assert!(watched.found.is_empty(), "{} {kind:?}: {:?}", story.name, watched.found);
        }
    }
    for seed in 0..60 {
        for sort in SORTS {
            let played = play(&scene(sort, seed));
            let watched = watch(&played, 5000);
            assert_found(&played, &watched, &format!("{sort:?} {seed}"));
            assert_eq!(watched.state.differences, 0, "{sort:?} {seed}: a right chip is accused");
            reads += played.reads.len();
            overtaken += watched.state.overtaken;
        }
    }
    println!("{reads} READs of right chips, {overtaken} of them overtaken");
    assert!(reads > 1000 && overtaken > 20);
}

fn by_name(name: &str) -> Story {
    stories().into_iter().find(|story| story.name == name).unwrap()
}

/// Each of the 56 chips that err is found in some story, where the generator knows it to be, but for those
/// that no capture shows, which are found in none.
#[test]
fn each_chip_that_errs_is_found() {
    let mut found = 0;
    for flaw in flaws() {
        for kind in BOTH_KINDS {
            let shown = stories().iter().any(|story| {
                let played = play(&story.scene(kind, flaw, 14));
                let watched = watch(&played, 1 << 16);
                assert_found(&played, &watched, &format!("{flaw:?} {kind:?} {}", story.name));
                watched.state.differences > 0
            });
            assert_eq!(shown, !flaw.never_shows(), "{flaw:?} {kind:?}");
            found += usize::from(shown);
        }
    }
    println!("{found} of {} chips that err are found", 2 * flaws().len());
    assert_eq!(flaws().len(), 56);
}

#[test]
fn chips_that_err_are_found_in_random_captures() {
    let all = flaws();
    let mut shown = 0;
    for seed in 0..112 {
        let flaw = all[seed as usize % all.len()];
        for sort in SORTS {
            let played = play(&Scene { flaw, ..scene(sort, seed) });
            let watched = watch(&played, 3000);
            assert_found(&played, &watched, &format!("{flaw:?} {sort:?} {seed}"));
            shown += usize::from(watched.state.is_wrong());
        }
    }
    assert!(shown > 100, "{shown} of 336 show");
}

/// Noise: each fault is told, and what comes after it is heard.
#[test]
fn noise_is_counted_and_nothing_is_lost() {
    let (mut faults, mut later) = (0, 0);
    for seed in 0..80 {
        let played = glitched(seed);
        let watched = watch(&played, 2000);
        assert_found(&played, &watched, &format!("glitches {seed}"));
        faults += watched.state.watch.faults();
        let first = played.faults.first().map_or(u64::MAX, |fault| fault.sample);
        later += played.reads.iter().filter(|read| read.sample > first).count();
    }
    println!("{faults} faults, {later} READs after one");
    assert!(faults > 100 && later > 500);
}

/// How the samples come plays no part, and neither does the form of the file.
#[test]
fn chunks_and_forms_do_not_matter() {
    for seed in 0..12 {
        let flaw = if seed % 2 == 0 { Flaw::None } else { Flaw::LateByOne };
        let played = play(&Scene { flaw, ..scene(Sort::Overlapping, seed) });
        let whole = watch(&played, 1 << 20);
        assert!(seed % 2 == 0 || !whole.found.is_empty());
        let of_tick = played.setting.samples_per_tick;
        let low: Vec<u8> = played.samples.iter().map(|sample| sample & 0x7F).collect();
        let texts = [vcd(&low, 7, of_tick), csv(&low, &[6, 5, 4, 3, 2, 1, 0])];
        let of_text =
            |text: &String| watch_bytes(text.as_bytes(), 1000 * of_tick, wanted(&played), 3000);
        let pieces = [1, 2, 7, 333, 10_000].map(|pieces| watch(&played, pieces));
        for other in pieces.into_iter().chain(texts.iter().map(of_text)) {
            assert_eq!(other.found, whole.found, "{seed}");
            let (a, b) = (&other.state, &whole.state);
            assert_eq!(
                (a.waits, a.differences, a.overtaken),
                (b.waits, b.differences, b.overtaken)
            );
            // Bit 7 of the last sample is kept in the buffer, and in no text.
            assert_eq!(a.watch.bytes()[..45], b.watch.bytes()[..45]);
            assert_eq!(a.watch.bytes()[46..], b.watch.bytes()[46..]);
        }
    }
}

/// The waits are those of the bus share (#112), which the library counts over a trace of the same events.
#[test]
fn waits_are_those_of_the_bus_share() {
    let mut waited = 0;
    let random = (0..60).map(|seed| play(&scene(Sort::Apart, seed)));
    let told = stories().into_iter().map(|story| play(&story.scene(Kind::Tpt29641, Flaw::None, 3)));
    for played in told.chain(random).filter(|played| played.events.len() <= 4096) {
        let events: Vec<Event> =
            played.events.iter().map(|(_, event)| Event::from(*event)).collect();
        let trace = write_trace(Pins::default(), part(played.setting.kind), &events).unwrap();
        let mut totals = Totals::new();
        totals.add(&trace).unwrap();
        let state = watch(&played, 999).state;
        for master in Master::BOTH {
            let own = state.waits.each[master as usize];
            assert_eq!((own.ticks, own.longest), (totals.waited(master), totals.longest(master)));
            waited += own.ticks;
        }
    }
    assert!(waited > 300, "{waited} ticks were waited");
}

/// Controller 1 of box 14 waits without end: above the promise it is told at once, and once.
#[test]
fn a_wait_above_the_promise_is_told_at_once() {
    let played = play(&by_name("box14").scene(Kind::Pca9641, Flaw::None, 1));
    let (of_tick, promised) = (played.setting.samples_per_tick, 51);
    let asked = Wanted { promised: [Some(1), Some(promised)], ..wanted(&played) };
    let Watched { found, state } = watch_as(&played, asked, 777);
    let mut device = Device::fresh(Part::Pca9641);
    let mut after_ticks = vec![];
    for (sample, event) in &played.events {
        device.step(*event);
        if event[0] == 6 {
            after_ticks.push((*sample, waits(&device, Master::One)));
        }
    }
    let begins = after_ticks.iter().position(|(_, waits)| *waits).unwrap();
    assert!(after_ticks[begins..].iter().all(|(_, waits)| *waits));
    let sample = after_ticks[begins + promised as usize].0;
    let finding = Finding::LongWait { master: Master::One, promised };
    assert_eq!(found, [Found { sample, rate: 1000 * of_tick, finding }]);
    let waited = state.waits.each[1];
    assert_eq!((waited.longest_from, waited.above), (after_ticks[begins].0 / of_tick, 1));
    assert!(state.is_wrong() && state.differences == 0);
    let said = summary::told("a", &state);
    let line = format!(
        "Controller 1 waited {0} ms in 1 wait, the longest {0} ms, from 0.003000 s on; the sheets promise 51 \
         ms at most, and 1 wait was above it\n",
        waited.longest
    );
    assert!(said.contains("No difference: the chip answered as the model\n"), "{said}");
    assert!(
        said.contains("Controller 0 did not wait; the sheets promise 1 ms at most\n"),
        "{said}"
    );
    assert!(said.contains(&line), "{said}");
    assert!(words::line(&found[0])
        .ends_with(": controller 1 waits longer than 51 ticks, which the sheets promise"));
}

/// The words of a difference: register, bytes, and the bits by name.
#[test]
fn differences_in_words() {
    let stuck = |register, bit, high| Flaw::Stuck { register, bit, high };
    let cases = [
        (
            "take-over",
            stuck(2, 0, true),
            "STATUS: heard C9h, expected C8h, OTHER_LOCK (partner granted) is set",
        ),
        ("box14", stuck(1, 0, false), "CONTR: heard 04h, expected 05h, LOCK_REQ is clear"),
        ("interrupts", stuck(4, 3, false), "INT_STATUS: heard 00h, expected 08h, test is clear"),
    ];
    for (name, flaw, expected) in cases {
        let played = play(&by_name(name).scene(Kind::Pca9641, flaw, 14));
        let found = watch(&played, 5000).found;
        let line = words::line(&found[0]);
        assert!(line.ends_with(expected), "{name}: {line}");
        let first = played.first_wrong().unwrap();
        let time = 1000 * first / played.setting.samples_per_tick;
        assert!(line.starts_with(&format!("0.{time:06} s, sample {first}: controller ")), "{line}");
    }
}

/// PULSEs stand on no line, so an initialisation cannot be followed, and the summary says so.
#[test]
fn an_initialisation_is_told() {
    let mut scene = by_name("box14").scene(Kind::Pca9641, Flaw::None, 1);
    assert_eq!(watch(&play(&scene), 5000).state.initialising, None);
    scene.scripts[0] = [set(3, 0), set(1, 0x0D)].concat();
    let played = play(&scene);
    let state = watch(&played, 5000).state;
    let tick = state.initialising.unwrap() / played.setting.samples_per_tick;
    assert!((1..4).contains(&tick), "{tick}");
    let line =
        format!("An initialisation ran at 0.{tick:03}000 s, and its PULSEs stand on no line: ");
    assert!(summary::told("a", &state).contains(&line), "{}", summary::told("a", &state));
}

/// After a difference the model takes what the READ shows, so that the same difference is told once. What
/// it took is read back from it.
#[test]
fn resynchronised() {
    let mut fewer = 0;
    for (name, flaw) in [
        ("box14-filled-in", Flaw::ReserveShort),
        ("take-over", Flaw::ReserveShort),
        ("idle", Flaw::IdleAt100),
        ("idle", Flaw::OtherKind),
        ("mail", Flaw::MailAtLow),
        ("box14", Flaw::RtZeroRunsOut),
    ] {
        let played = play(&by_name(name).scene(Kind::Tpt29641, flaw, 14));
        let plain = watch(&played, 5000).state.differences;
        let asked = Wanted { resync: true, ..wanted(&played) };
        let Watched { found, state } = watch_as(&played, asked, 5000);
        println!("{name} {flaw:?}: {plain} differences, {} resynchronised", state.differences);
        fewer += plain.saturating_sub(state.differences);
        // Behind each difference stands what was taken.
        for pair in found.windows(2) {
            if let (Finding::Difference(check), Finding::Taken { register, .. }) =
                (&pair[0].finding, &pair[1].finding)
            {
                assert_eq!((check.register, pair[0].sample), (*register, pair[1].sample));
            }
        }
        let took = found.iter().any(|found| matches!(found.finding, Finding::Taken { .. }));
        assert!(took || plain == 0, "{name} {flaw:?}");
    }
    assert!(fewer > 10, "{fewer} differences fewer");
}

/// Any byte of the three registers, from any device that a run reaches: what is taken reads as it was
/// heard, but for the bits that are told as not decided.
#[test]
fn what_is_taken_reads_as_it_was_heard() {
    let mut rng = Rng::new(9);
    let mut taken = 0;
    for seed in 0..40 {
        let played = play(&scene(Sort::Apart, seed));
        let device = watch(&played, 9999).state.watch.device();
        for register in [Register::Contr, Register::Status, Register::IntStatus] {
            for master in Master::BOTH {
                let (heard, expected) = (rng.byte(), device.read(master, register));
                let check = gunwaleish::Check { sample: 1, master, register, heard, expected };
                let took = resync(&device, &check, false).unwrap();
                let reads = took.device.read(master, register);
                assert_eq!(reads ^ heard, took.left);
                // Nobody's look decides BUS_HUNG, or a bit that always reads 0.
                let open = match register {
                    Register::Contr => 0x00,
                    Register::Status => 0x24,
                    _ => 0xC0,
                };
                assert_eq!(
                    took.left & !open,
                    0,
                    "{register}: {heard:02X}h, {reads:02X}h, {:?}",
                    took.things
                );
                taken += usize::from(!took.things.is_empty());
            }
        }
    }
    assert!(taken > 200, "{taken}");
    let device = Device::fresh(Part::Pca9641);
    let rt = gunwaleish::Check {
        sample: 1,
        master: Master::Zero,
        register: Register::Rt,
        heard: 1,
        expected: 0,
    };
    assert_eq!(resync(&device, &rt, false), None);
}
