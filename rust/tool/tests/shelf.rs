//! Scripts and shelf files, read and told apart from what is none, and shelves run against the
//! independent model (#110).

use gunwaleish::Event;
use gunwaleish_tool::commands::shelf::{over, Wanted};
use gunwaleish_tool::each::Made;
use gunwaleish_tool::files::Input;
use gunwaleish_tool::script::named::{read_named, Name, Named};
use gunwaleish_tool::shelf::file::read_shelf;
use gunwaleish_tool::shelf::{run_over, Shelved};
use gunwaleish_tool::story::follow;
use model::part::Kind;
use model::rng::Rng;
use model::traces::trace;
use model::Device;

const CHASSIS: &str = "70 PCA9641\n71 PCA9641\n72 TPT29641\n73 PCA9641\n";

fn input(name: &str, text: &str) -> Input {
    Input { name: name.to_string(), bytes: text.as_bytes().to_vec() }
}

fn made(shelf: &str, script: &str, list: bool) -> Made {
    let wanted = if list { Wanted::LIST } else { Wanted::WORDS };
    over(&input("a.shelf", shelf), &input("a.script", script), wanted)
}

fn list(shelf: &str, script: &str) -> String {
    String::from_utf8(made(shelf, script, true).output.unwrap()).unwrap()
}

fn shelved(shelf: &str, script: &str) -> Shelved {
    let (slots, _) = read_shelf(shelf.as_bytes()).unwrap();
    run_over(slots, &read_named(script.as_bytes()).unwrap()).unwrap()
}

/// Each kind of event with its name, and again as it is written.
#[test]
fn each_kind_has_its_name() {
    let text =
        "at 71 command 0 03\nat 71 write 1 32\nat 71 read 0\nat 71 stop 1\nat 71 pair 01 81\n\
                place 2 lines 1 0 1\ntick\nreset\nplace 15 pulse 0\ngeneral 1 06\nraw FF 00 00 00\n\
                at 71 raw 00 00 00 01\nplace 2 raw 07 02 00 00\nraw 06 01 00 00\n";
    let events = read_named(text.as_bytes()).unwrap();
    let again: String = events.iter().map(|named| format!("{named}\n")).collect();
    assert_eq!(again, text);
    assert_eq!((events[0].name, events[5].name), (Name::Address(0x71), Name::Place(2)));
    assert!(events.iter().zip(1..).all(|(named, line)| named.line == line));
    assert_eq!(read_named(b"\n# only a comment\nTick 50 # ticks\n").unwrap().len(), 50);
}

/// What is no script for a shelf is told with file and line, and nothing is run.
#[test]
fn scripts_that_cannot_be_read_are_told() {
    let cases = [
        ("tick\ncommand 0 01", "a.script, line 2: 'command', expected at and an address before it"),
        ("place 1 write 0 01", "line 1: 'write', expected at and an address before it"),
        ("at 71 lines 1 1 1", "line 1: 'lines', expected place and a number before it"),
        ("pulse 1", "line 1: 'pulse', expected place and a number before it"),
        ("at 71 tick", "line 1: 'tick', expected no name before it, since it reaches all devices"),
        ("place 0 reset", "line 1: 'reset', expected no name before it"),
        ("at 70 general 0 06", "line 1: 'general', expected no name before it"),
        ("raw 00 00 01 00", "line 1: 'raw', expected at and an address before it"),
        ("at 71 raw 05 01 01 01", "line 1: 'raw', expected place and a number before it"),
        ("at 71 raw 0A 00 00 00", "line 1: 'raw', expected no name before it"),
        ("at 71g read 0", "line 1: '71g', expected a byte in hex"),
        ("at", "line 1: the line ends, expected a byte in hex"),
        ("at 71", "line 1: the line ends, expected command, write, read, stop, pair, lines, pulse"),
        ("at 71 at 72 read 0", "line 1: 'at', expected command, write"),
        ("place 256 pulse 0", "line 1: '256', expected a place in decimal, 0 to 255"),
        ("place +1 pulse 0", "line 1: '+1', expected a place in decimal"),
        ("wirte 0 01", "line 1: 'wirte', expected at, place, tick, reset, general or raw"),
        ("pins 0 0 0 1", "line 1: 'pins', expected an event: the shelf file has the address"),
        ("part PCA9641", "line 1: 'part', expected an event: the shelf file has the address"),
        ("at 71 read 0 1", "line 1: '1', expected the line's end"),
        ("tick 4096\nat 71 read 0", "line 2: 'at', expected the end: a script has 4,096 events"),
    ];
    for (script, expected) in cases {
        for list in [false, true] {
            let made = made(CHASSIS, script, list);
            let said = made.refused.unwrap();
            assert!(
                said.starts_with("a.script, ") && said.contains(expected),
                "{script:?}: {said}"
            );
            assert_eq!(made.output, None);
        }
    }
}

/// What is no shelf is told with file and line: lines that cannot be read, and the refusals 5, 6 and
/// 17, in this order.
#[test]
fn shelves_that_are_none_are_told() {
    let seventeen: String =
        (0..17).map(|place| format!("{:02X} PCA9641\n", 0x60 + place)).collect();
    let cases = [
        ("", "a.shelf, line 1: refusal 5: the shelf has no device"),
        ("# none\n\n", "a.shelf, line 3: refusal 5: the shelf has no device"),
        (&seventeen, "a.shelf, line 17: refusal 6: the shelf has 17 devices, and 16 are the most"),
        (&seventeen.replace("6F", "60"), "a.shelf, line 17: refusal 6: "),
        (
            "70 PCA9641\n# again\n70 TPT29641",
            "a.shelf, line 3: refusal 17: address 70h is there twice, on line 1 too",
        ),
        ("70", "a.shelf, line 1: the line ends, expected the name of a part, PCA9641 or TPT29641"),
        ("70 PCA9541", "a.shelf, line 1: 'PCA9541', expected the name of a part"),
        ("PCA9641 70", "a.shelf, line 1: 'PCA9641', expected a byte in hex"),
        ("70 PCA9641 1", "a.shelf, line 1: '1', expected the line's end"),
    ];
    for (shelf, expected) in cases {
        let made = made(shelf, "tick", false);
        assert!(made.refused.as_ref().unwrap().starts_with(expected), "{:?}", made.refused);
        assert_eq!(made.output, None);
    }
    let sixteen: String = seventeen.lines().take(16).map(|line| format!("{line}\n")).collect();
    assert_eq!(
        list(&sixteen, "at 6F stop 0\nplace 15 lines 1 0 1"),
        "0400000C  at 6F stop 0\n00000004  place 15 lines 1 0 1\n"
    );
}

/// An event that is not in the row is told with its line and changes nothing, and the others go on.
#[test]
fn what_is_not_in_the_row_is_told() {
    let script =
        "at 71 command 0 01\nat 7F stop 0\nplace 4 pulse 0\nat 71 write 0 05\nat 71 stop 0\n";
    let made = made(CHASSIS, script, false);
    let text = String::from_utf8(made.output.unwrap()).unwrap();
    let said =
        "a.script, line 2, event 2: refusal 18: no device has address 7Fh (and 1 event more)";
    assert_eq!(made.refused.as_deref(), Some(said));
    assert!(text.contains(
        "\n    event 3, line 3, place 4 pulse 0: refusal 18: the shelf has no place 4\n"
    ));
    assert!(text
        .contains("\nplace 1, address 71h, PCA9641: controller 0 owns the bus and is connected\n"));
    let lines = list(CHASSIS, script);
    let answers: Vec<&str> = lines.lines().map(|line| &line[..8]).collect();
    assert_eq!(answers, ["0000000C", "12000000", "12000000", "0000200C", "0000250C"]);
}

/// Scripts with events that are refused, and what is told of each.
const REFUSED: [(&str, &str); 6] = [
        (
            "tick\nat 71 write 0 01",
            "a.script, line 2, event 2: refused 4: out of sequence (at place 1, address 71h)",
        ),
        (
            "at 72 raw 00 02 01 00\nat 70 stop 1\n",
            "a.script, line 1, event 1: refused 3: field out of range (at place 2, address 72h) (and 1 \
             event more)",
        ),
        ("raw FF 00 00 00", "a.script, line 1, event 1: refused 2: unknown kind (at all 4 places)"),
        (
            "place 3 pulse 1",
            "a.script, line 1, event 1: refused 4: out of sequence (at place 3, address 73h)",
        ),
        (
            "at 71 stop 0\nat 7F stop 0\nplace 9 pulse 1",
            "a.script, line 1, event 1: refused 4: out of sequence (at place 1, address 71h) (and 2 events \
             more)",
        ),
        (
            "at 7F stop 0\nat 71 stop 0",
            "a.script, line 1, event 1: refusal 18: no device has address 7Fh (and 1 event more)",
        ),
];

/// An event that a device refuses, with 2, 3 or 4, is told with its line, its place and why; one that
/// reaches all is refused at each.
#[test]
fn what_a_device_refuses_is_told() {
    for (script, expected) in REFUSED {
        for list in [false, true] {
            let made = made(CHASSIS, script, list);
            assert_eq!(made.refused.as_deref(), Some(expected), "{script}");
            assert!(made.output.is_some());
        }
    }
    let text = String::from_utf8(made(CHASSIS, REFUSED[1].0, false).output.unwrap()).unwrap();
    let lines = "\nRefused by the device that it reaches, and changing nothing there:\n    \
                 event 1, line 1, at 72 raw 00 02 01 00: refused 3: field out of range (at place 2, address \
                 72h)\n    event 2, line 2, at 70 stop 1: refused 4: out of sequence (at place 0, address \
                 70h)\n";
    assert!(text.contains(lines), "{text}");
    assert_eq!(made(CHASSIS, "tick\nat 71 command 0 01", false).refused, None);
    // Not acknowledged is no refusal.
    assert_eq!(made(CHASSIS, "at 71 command 0 08\ngeneral 0 07", false).refused, None);
}

/// Ticks and resets reach all, and an event for one leaves the others.
#[test]
fn each_place_has_its_own_events() {
    let script =
        "at 72 command 0 01\nat 72 write 0 05\nat 72 stop 0\ntick 3\nplace 0 lines 1 0 1\nreset\n";
    let shelved = shelved(CHASSIS, script);
    let numbers = |place: usize| -> Vec<usize> {
        shelved.stories[place].steps.iter().map(|step| step.number).collect()
    };
    assert_eq!(numbers(0), [4, 5, 6, 7, 8]);
    assert_eq!(numbers(1), [4, 5, 6, 8]);
    assert_eq!(numbers(2), [1, 2, 3, 4, 5, 6, 8]);
    assert_eq!(shelved.stories[2].steps[2].scene.owner.unwrap().number(), 0);
    assert!(shelved.stories[2].steps[6].scene.owner.is_none());
}

/// A shelf of one device tells what `explain` tells of the same events.
#[test]
fn a_shelf_of_one_is_a_device() {
    let (slots, _) = read_shelf(b"71 PCA9641").unwrap();
    for name in ["m1", "box14-rt00", "box14-rt50", "hung-bus", "pair", "mail"] {
        let path = format!("{}/../../traces/{name}.trace", env!("CARGO_MANIFEST_DIR"));
        let trace = std::fs::read(path).unwrap();
        let named = |event: Event| match event.bytes()[0] {
            0..=4 => Named { line: 1, name: Name::Address(0x71), event },
            5 | 7 => Named { line: 1, name: Name::Place(0), event },
            _ => Named { line: 1, name: Name::All, event },
        };
        let run = gunwaleish::run(&trace).unwrap();
        let events: Vec<Named> = run.events.iter().copied().map(named).collect();
        let shelved = run_over(slots.clone(), &events).unwrap();
        let answers: Vec<_> = shelved.answered.iter().map(|(_, answer)| answer.unwrap()).collect();
        assert_eq!(answers, run.answers, "{name}");
        assert_eq!(shelved.stories[0].steps, follow(&trace).unwrap().steps, "{name}");
    }
}

/// A random shelf and a random script over it, of the generators' events.
fn random(rng: &mut Rng) -> (String, Vec<Named>) {
    let count = 1 + rng.below(16) as usize;
    let parts = ["PCA9641", "TPT29641"];
    let from = rng.byte() & 0x6F;
    let line = |place: usize, rng: &mut Rng| {
        format!("{:02X} {}\n", usize::from(from) + place, rng.pick(&parts))
    };
    let shelf: String = (0..count).map(|place| line(place, rng)).collect();
    let lists: Vec<Vec<Event>> = (0..count)
        .map(|_| gunwaleish::run(&trace(rng.below(1 << 32), 80)).unwrap().events)
        .collect();
    let mut next = vec![0; count];
    let mut events = vec![];
    while let Some(place) = Some(rng.below(count as u64) as usize).filter(|&p| next[p] < 80) {
        let event = lists[place][next[place]];
        next[place] += 1;
        let wrong = rng.below(30) == 0;
        let name = match event.bytes()[0] {
            0..=4 if wrong => Name::Address(from.wrapping_add(count as u8)),
            0..=4 => Name::Address(from + place as u8),
            5 | 7 if wrong => Name::Place(count as u8),
            5 | 7 => Name::Place(place as u8),
            _ => Name::All,
        };
        events.push(Named { line: events.len() + 1, name, event });
    }
    (shelf, events)
}

/// An event with this name reaches the device of this place and address.
fn is_for(name: Name, place: usize, address: u8) -> bool {
    match name {
        Name::Address(named) => named == address,
        Name::Place(named) => usize::from(named) == place,
        Name::All => true,
    }
}

/// Each answer, and all that is told of each place, against devices of the independent model that are
/// given the events that reach them.
#[test]
fn shelves_are_the_models() {
    let mut rng = Rng::new(110);
    let mut seen = [0; 3];
    for _ in 0..60 {
        let (shelf, events) = random(&mut rng);
        let (slots, _) = read_shelf(shelf.as_bytes()).unwrap();
        let shelved = run_over(slots.clone(), &events).unwrap();
        let kind = |part: gunwaleish::Part| Kind::of(part.number()).unwrap();
        let mut devices: Vec<Device> =
            slots.iter().map(|slot| Device::power_up_of(kind(slot.part))).collect();
        let mut told: Vec<_> = shelved.stories.iter().map(|story| story.steps.iter()).collect();
        for (number, (named, answer)) in shelved.answered.iter().enumerate() {
            let mut expected = None;
            for (place, device) in devices.iter_mut().enumerate() {
                if is_for(named.name, place, slots[place].address) {
                    let answer = device.step(named.event.bytes());
                    let step = told[place].next().unwrap();
                    assert_eq!((step.number, step.answer), (number + 1, answer.into()));
                    assert_eq!(step.scene.hung, device.is_hung(), "event {}", number + 1);
                    expected.get_or_insert(answer);
                }
            }
            seen[usize::from(expected.is_none())] += 1;
            seen[2] += usize::from(named.name == Name::All);
            assert_eq!(
                answer.map_err(|refusal| refusal.number()),
                expected.map(Into::into).ok_or(18)
            );
        }
        assert!(told.iter_mut().all(|steps| steps.next().is_none()));
        for (device, shown) in devices.iter_mut().zip(&shelved.shown) {
            // Bytes that are no event change nothing, and their answer shows the device.
            let [_, _, owner, lines] = device.step([0xFF, 0, 0, 0]);
            assert_eq!(*shown, [0, 0, owner, lines].into());
        }
    }
    assert!(seen.iter().all(|&times| times > 20), "{seen:?}");
}

/// The sample's files with some bytes changed: no panic, and what is refused is told in one line of a
/// fair length, with its file and line.
#[test]
fn damaged_files_are_told() {
    let sample = |name: &str| {
        let path = format!("{}/../../traces/shelf/{name}", env!("CARGO_MANIFEST_DIR"));
        std::fs::read(path).unwrap()
    };
    // The long waits are left out, so that many can be tried.
    let short = |text: Vec<u8>| String::from_utf8(text).unwrap().replace("tick 451", "tick 4");
    let good = [short(sample("chassis.shelf")), short(sample("hang.script"))];
    let mut rng = Rng::new(17);
    let mut refused = 0;
    for _ in 0..1500 {
        let mut files = good.clone().map(String::into_bytes);
        for _ in 0..1 + rng.below(4) {
            let file = &mut files[rng.below(2) as usize];
            let at = rng.below(file.len() as u64) as usize;
            file[at] = if rng.percent(70) { rng.pick(b"0179aAtp# \n") } else { rng.byte() };
        }
        let [shelf, script] = files;
        let shelf = Input { name: "a.shelf".to_string(), bytes: shelf };
        let script = Input { name: "a.script".to_string(), bytes: script };
        let wanted = rng.pick(&[Wanted::WORDS, Wanted::LIST]);
        if let Some(said) = over(&shelf, &script, wanted).refused {
            refused += 1;
            let place = said.starts_with("a.shelf, line ") || said.starts_with("a.script, line ");
            assert!(place && said.len() < 300 && !said.contains('\n'), "{said}");
        }
    }
    assert!(refused > 300, "{refused}");
}
