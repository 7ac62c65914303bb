//! All orders of two start-up scripts in words: patterns, endings and groups, held to the independent
//! model on generated scripts; and scripts that are refused.

use std::collections::BTreeMap;

use gunwaleish::{Bus, Event, Master, Part, Pins, Refusal};
use gunwaleish_tool::commands::orders::{orders, How, Wanted};
use gunwaleish_tool::each::Made;
use gunwaleish_tool::files::Input;
use gunwaleish_tool::script::write_script;
use gunwaleish_tool::startup::{words, Left, Pattern, Scripts, PART};
use gunwaleish_tool::story::follow;
use model::device::LOCK_REQ;
use model::orders::{order_of, patterns};
use model::part::Kind;
use model::rng::Rng;
use model::scripts::good_scripts;
use model::trace::four;
use model::Device;

fn pins() -> Pins {
    Pins::of_address(0x71).unwrap()
}

fn input(name: &str, bytes: impl Into<Vec<u8>>) -> Input {
    Input { name: name.to_string(), bytes: bytes.into() }
}

/// Two scripts of these events.
fn inputs(script0: &[Event], script1: &[Event]) -> [Input; 2] {
    let script = |events| write_script(pins(), PART, events);
    [input("a.script", script(script0)), input("b.script", script(script1))]
}

fn make(script0: &[Event], script1: &[Event], wanted: Wanted) -> Made {
    let [a, b] = inputs(script0, script1);
    orders(&a, &b, &wanted, How::default())
}

fn told(script0: &[Event], script1: &[Event], wanted: Wanted) -> (String, Option<String>) {
    let made = make(script0, script1, wanted);
    (String::from_utf8(made.output.unwrap_or_default()).unwrap(), made.refused)
}

fn asks(master: Master, contr: u8) -> Vec<Event> {
    vec![
        Event::Command { master, code: 1 },
        Event::Write { master, value: contr },
        Event::Stop { master },
    ]
}

#[test]
fn patterns_are_the_models() {
    for events0 in 0..=6 {
        for events1 in 0..=6 {
            let text = |digits: Vec<usize>| digits.iter().map(usize::to_string).collect();
            let mut expected: Vec<String> =
                patterns(events0, events1).into_iter().map(text).collect();
            let lengths = [events0, events1];
            for (pattern, word) in Pattern::all(lengths).iter().zip(&expected) {
                assert_eq!(Pattern::read(word, lengths).as_ref(), Some(pattern));
            }
            if events0 + events1 == 0 {
                expected = vec!["(no event)".to_string()];
            }
            let found: Vec<String> = Pattern::all(lengths).iter().map(Pattern::to_string).collect();
            assert_eq!(found, expected);
        }
    }
    for word in ["", "0", "0111", "00", "012", "0 1"] {
        assert_eq!(Pattern::read(word, [1, 1]), None, "{word}");
    }
}

/// Owner, ground, who waits and what is refused, of each order, as the model has it; and who waits as
/// `explain` tells it.
#[test]
fn endings_are_the_models() {
    let mut rng = Rng::new(109);
    let mut seen = [0; 3];
    for _ in 0..80 {
        let bytes = good_scripts(&mut rng);
        let of_model =
            bytes.each_ref().map(|script| script.chunks(4).map(four).collect::<Vec<_>>());
        let events = of_model.each_ref().map(|script| script.iter().map(|&e| e.into()).collect());
        let scripts = Scripts { pins: pins(), part: PART, events };
        let endings = scripts.endings().unwrap();
        let patterns = patterns(of_model[0].len(), of_model[1].len());
        assert_eq!(endings.len(), patterns.len());
        for (place, (ending, pattern)) in endings.iter().zip(&patterns).enumerate() {
            let mut device = Device::power_up();
            let order = order_of(pattern, &of_model);
            let answers: Vec<[u8; 4]> = order.iter().map(|&event| device.step(event)).collect();
            assert_eq!(ending.number, place + 1);
            assert_eq!(ending.bus, Bus::from(device.answer(0, 0)[2]));
            let waits =
                [0, 1].map(|m| device.masters[m].has(LOCK_REQ) && device.owner() != Some(m));
            assert_eq!(ending.waits, waits);
            assert_eq!(ending.refused, answers.iter().filter(|answer| answer[0] > 1).count());
            assert_eq!(ending.left, left_of(&device));
            // A bus read off the run is the listed one.
            assert_eq!(scripts.bus_after(&ending.pattern), Ok(ending.bus));
            seen[0] += usize::from(ending.is_stuck());
            seen[1] += usize::from(waits[0]);
            seen[2] += usize::from(waits[1]);
            if place % 20 == 0 {
                let story = follow(&scripts.trace(&ending.pattern).unwrap()).unwrap();
                let last = story.steps.last().map_or([false; 2], |step| step.scene.waits);
                assert_eq!(ending.waits, last);
            }
        }
    }
    assert!(seen.iter().all(|count| *count > 100), "{seen:?}");
}

/// What the model's registers hold, as a READ shows them: LOCK_GRANT stands in CONTR too.
fn left_of(device: &Device) -> [Left; 2] {
    [0, 1].map(|m| Left { contr: device.register(m, 1), rt: device.register(m, 3) })
}

/// The orders on a TPT29641, for which the library lists none, are the model's too; and scripts too long for
/// a list have no endings there either.
#[test]
fn endings_on_the_other_part_are_the_models() {
    let mut rng = Rng::new(209);
    for _ in 0..60 {
        let bytes = good_scripts(&mut rng);
        let of_model =
            bytes.each_ref().map(|script| script.chunks(4).map(four).collect::<Vec<_>>());
        let events = of_model.each_ref().map(|script| script.iter().map(|&e| e.into()).collect());
        let scripts = Scripts { pins: pins(), part: Part::Tpt29641, events };
        let patterns = patterns(of_model[0].len(), of_model[1].len());
        for (ending, pattern) in scripts.endings().unwrap().iter().zip(&patterns) {
            let mut device = Device::power_up_of(Kind::Tpt29641);
            order_of(pattern, &of_model).iter().for_each(|&event| {
                device.step(event);
            });
            assert_eq!(ending.bus, Bus::from(device.answer(0, 0)[2]));
            assert_eq!(ending.left, left_of(&device));
        }
    }
    // Its write pointer rolls from 7 to 0, so that the third byte comes to CONTR and asks for the bus.
    let master = Master::Zero;
    let mut rolls = vec![Event::Command { master, code: 0x87 }];
    rolls.extend([0, 0, 1].map(|value| Event::Write { master, value }));
    rolls.push(Event::Stop { master });
    let owner = |part| {
        let scripts = Scripts { pins: pins(), part, events: [rolls.clone(), vec![]] };
        scripts.endings().unwrap()[0].bus.owner
    };
    assert_eq!(Part::BOTH.map(owner), [None, Some(master)]);
    let long = [vec![Event::Tick; 7], vec![]];
    let long = Scripts { pins: pins(), part: Part::Tpt29641, events: long };
    assert_eq!(long.endings(), Err(Refusal::LongScript));
}

/// Each order is in one group, which is told with its count, and with its first order.
#[test]
fn groups_hold_every_order() {
    let mut rng = Rng::new(110);
    for _ in 0..60 {
        let bytes = good_scripts(&mut rng);
        let events =
            bytes.each_ref().map(|script| script.chunks(4).map(|e| four(e).into()).collect());
        let scripts = Scripts { pins: pins(), part: PART, events };
        let endings = scripts.endings().unwrap();
        let groups = scripts.groups(&endings).unwrap();
        assert_eq!(groups.iter().map(|group| group.count).sum::<usize>(), endings.len());
        let mut counts = BTreeMap::new();
        for ending in &endings {
            let owner = ending.bus.owner.map(Master::number);
            let ground = ending.bus.ground.map(|ground| ground.number());
            let key = (owner, ground, ending.waits);
            counts.entry(key).or_insert((0, ending.number)).0 += 1;
        }
        for ((owner, ground, waits), (count, first)) in counts {
            let alike = groups.iter().filter(|group| {
                let numbers = (group.owner.map(Master::number), group.ground.map(|g| g.number()));
                numbers == (owner, ground) && group.waits == waits
            });
            let alike: Vec<_> = alike.collect();
            assert_eq!(alike.iter().map(|group| group.count).sum::<usize>(), count);
            assert_eq!(alike[0].first.number, first);
            // Only such as leave nobody the owner are told apart by their reasons.
            assert!(alike.len() == 1 || alike.iter().all(|group| !group.why.is_empty()));
        }
        let text = words::told(&endings, &groups);
        for group in &groups {
            let first =
                format!("    first: {}, order {}\n", group.first.pattern, group.first.number);
            assert!(text.contains(&first), "{text}");
            assert_eq!(group.first.is_stuck(), !group.why.is_empty());
        }
        let called_out = text.contains("NOBODY OWNS THE BUS, though it is asked for, in ");
        assert_eq!(called_out, endings.iter().any(|ending| ending.is_stuck()));
    }
}

/// Both in one PAIR: by priority, and by last granted.
#[test]
fn grounds_are_told() {
    let opens = |master| Event::Command { master, code: 1 };
    let pair = |value0, value1| {
        let master = Master::Zero;
        [opens(master), Event::Pair { value0, value1 }, Event::Stop { master }]
    };
    // The PAIR is refused where controller 1's port is not open yet, or no longer.
    let other = [opens(Master::One), Event::Stop { master: Master::One }];
    let (text, refused) = told(&pair(0x01, 0x81), &other, Wanted::Groups);
    assert_eq!(refused, None);
    let line =
        "in 4 of 10 orders controller 1 owns the bus (ground: priority), controller 0 waits\n";
    assert!(text.contains(line), "{text}");
    let (text, _) = told(&pair(0x01, 0x01), &other, Wanted::Groups);
    let line =
        "in 4 of 10 orders controller 0 owns the bus (ground: last granted), controller 1 waits\n";
    assert!(text.contains(line), "{text}");
    let (text, _) = told(&[Event::Tick], &[Event::Tick], Wanted::Groups);
    assert!(
        text.contains("in all 2 orders nobody owns the bus, and nobody asks for it\n"),
        "{text}"
    );
}

/// Nobody owns: the port that is open, and the hold after a soft reset.
#[test]
fn why_nobody_owns() {
    let forgets = &asks(Master::One, 0x01)[..2];
    let (text, refused) = told(&asks(Master::Zero, 0x01), forgets, Wanted::Groups);
    let said = "a.script, b.script: in 3 of 10 orders nobody owns the bus, though it is asked for";
    assert_eq!(refused.as_deref(), Some(said));
    assert!(text.contains("in 7 of 10 orders controller 0 owns the bus"), "{text}");
    assert!(text.contains("NOBODY OWNS THE BUS, though it is asked for, in 3 of 10 orders:\n"));
    assert!(text.contains("    controller 1 waits: a grant waits for the STOP, and its own port "));
    assert!(text.contains(" --order 01100 | gunwaleish explain\n"), "{text}");
    let resets = [
        Event::Command { master: Master::One, code: 1 },
        Event::Write { master: Master::One, value: 0x10 },
        Event::GeneralCall { master: Master::One, code: 6 },
    ];
    let (text, _) = told(&asks(Master::Zero, 0x01), &resets, Wanted::Groups);
    assert!(text.contains("    controller 0 waits: SCL is held low after a soft reset"), "{text}");
    assert!(text.contains("\nIn 9 of 20 orders an event is refused; first: 001110\n"), "{text}");
}

/// Every order on a line, in the sequence.
#[test]
fn all_orders_are_told() {
    let (text, _) = told(&asks(Master::Zero, 0x05), &asks(Master::One, 0x01), Wanted::All);
    let lines: Vec<&str> = text.lines().skip(2).take(21).collect();
    assert_eq!(lines[0], "order  pattern  own  con  wait  refused  ground");
    assert_eq!(lines[1], "    1  000111   0    0    1           0  sole requester");
    assert_eq!(lines[8], "    8  011001   1    -    0           0  sole requester");
    assert_eq!(lines[20], "   20  111000   1    -    0           0  sole requester");
    let (groups, _) = told(&asks(Master::Zero, 0x05), &asks(Master::One, 0x01), Wanted::Groups);
    assert!(text.ends_with(groups.split_once("\n\n").unwrap().1));
    let (text, _) = told(&[], &[], Wanted::All);
    assert!(text.starts_with("1 order of 0 events (a.script) and 0 events (b.script), each on"));
    assert!(text.contains("\n    1  (no event)  -    -    -           0  -\n"), "{text}");
}

/// An order as a trace and as a script: the same events.
#[test]
fn one_order_is_written() {
    let (script0, script1) = (asks(Master::Zero, 0x05), asks(Master::One, 0x01));
    let made = make(&script0, &script1, Wanted::Trace("011001".to_string()));
    let run = gunwaleish::run(&made.output.unwrap()).unwrap();
    let expected = [script0[0], script1[0], script1[1], script0[1], script0[2], script1[2]];
    assert_eq!((run.events.as_slice(), run.part, run.pins), (&expected[..], PART, pins()));
    let (text, _) = told(&script0, &script1, Wanted::Script("011001".to_string()));
    assert_eq!(text, write_script(pins(), PART, &expected));
    for wrong in ["01100", "0110011", "000000", "01x001", ""] {
        let made = make(&script0, &script1, Wanted::Trace(wrong.to_string()));
        assert!(made.output.is_none());
        let said = format!(
            "'{wrong}' is no order of a.script and b.script: a pattern has 3 of 0 and 3 of 1"
        );
        assert_eq!(made.refused.unwrap(), said);
    }
    assert_eq!(make(&[], &[], Wanted::Trace(String::new())).refused, None);
}

#[test]
fn scripts_that_are_refused() {
    let good = "pins 0 0 0 1\npart PCA9641\ntick\n";
    let cases = [
        (
            "pins 0 0 0 1\npart PCA9641\ntick 7\n",
            "a, b: refusal 6: a start-up script has more than six events (a has 7 events)",
        ),
        ("pins 0 0 0 1\npart PCA9641\nbell\n", "a, line 3: 'bell', expected command, "),
        ("part PCA9641\npins 1 0 0 0\n", "a, line 2: refusal 8: "),
        ("pins 0 0 0 1\ntick\n", "a, line 2: 'tick', expected part PCA9641 or part TPT29641 "),
        (
            "pins 0 0 0 1\npart TPT29641\n",
            "a: part TPT29641, but all orders are tried on a PCA9641; --part TPT29641 tries them on that",
        ),
        (
            "pins 0 0 0 1\npart PCA9641\ntick\nstop 1\n",
            "a, line 4: 'stop 1' is an event of controller 1, in the script of controller 0; ",
        ),
        (
            "pins 0 0 0 1\npart PCA9641\nraw 09 01 06 00\n",
            "a, line 3: 'raw 09 01 06 00' is an event of controller 1, in the script of controller 0; ",
        ),
        ("part PCA9641\npins 0 0 0 0\n", "a, line 2: pins 0 0 0 0, but b, line 1: pins 0 0 0 1; "),
    ];
    for (script, expected) in cases {
        for wanted in [Wanted::Groups, Wanted::All, Wanted::Trace("01".to_string())] {
            let made = orders(&input("a", script), &input("b", good), &wanted, How::default());
            let refused = made.refused.unwrap();
            assert!(made.output.is_none() && refused.starts_with(expected), "{refused}");
        }
    }
    let long = "pins 0 0 0 1\npart PCA9641\ntick 4096\n";
    let made = orders(&input("a", long), &input("b", long), &Wanted::Groups, How::default());
    assert!(made.refused.unwrap().ends_with(" (a has 4096 events; b has 4096 events)"));
    // What stands after 16 MiB is not read, so none of it is taken for the whole.
    let comment = format!("{good}{}", "#".repeat(1 << 24));
    let made = orders(&input("a", good), &input("b", comment), &Wanted::Groups, How::default());
    assert_eq!(made.refused.unwrap(), "b: the script is longer than 16 MiB");
}

/// What belongs to both controllers, or to none, stands in either script.
#[test]
fn events_of_one_controller_stand_in_its_script() {
    let any = "pair 01 01\nlines 1 1 1\ntick\npulse 1\nreset\nraw 09 07 06 00\n";
    let script = |events: &str| format!("pins 0 0 0 1\npart PCA9641\n{events}");
    let made =
        orders(&input("a", script(any)), &input("b", script(any)), &Wanted::Groups, How::default());
    assert_eq!(made.refused, None);
    for (controller, other) in [(0, 1), (1, 0)] {
        let of = |m: u8| {
            ["command M 01", "write M 01", "read M", "stop M", "general M 06"]
                .map(|line| script(&format!("tick\n{}\n", line.replace('M', &m.to_string()))))
        };
        for (own, others) in of(controller).into_iter().zip(of(other)) {
            let pair = |text: String| match controller {
                0 => [input("a", text), input("b", script(""))],
                _ => [input("a", script("")), input("b", text)],
            };
            let [a, b] = pair(own);
            assert_eq!(orders(&a, &b, &Wanted::Groups, How::default()).refused, None);
            let [a, b] = pair(others);
            let refused = orders(&a, &b, &Wanted::Groups, How::default()).refused.unwrap();
            let expected = format!(
                "is an event of controller {other}, in the script of controller {controller}"
            );
            assert!(refused.contains(", line 4: '") && refused.contains(&expected), "{refused}");
        }
    }
}

/// A refused event in some order: told, and a refusal where that is asked for.
#[test]
fn refused_events_are_a_refusal_if_asked_for() {
    let resets = [
        Event::Command { master: Master::One, code: 1 },
        Event::Write { master: Master::One, value: 0x10 },
        Event::GeneralCall { master: Master::One, code: 6 },
    ];
    let [a, b] = inputs(&asks(Master::Zero, 0x01), &resets);
    let strict = How { strict: true, ..How::default() };
    let made = |how| orders(&a, &b, &Wanted::Groups, how);
    let stuck = made(How::default()).refused.unwrap();
    assert!(!stuck.contains("an event is refused"), "{stuck}");
    assert_eq!(
        made(strict).refused.unwrap(),
        stuck + "; in 9 of 20 orders an event is refused; first: 001110"
    );
    assert_eq!(made(strict).output, made(How::default()).output);
    let [a, b] = inputs(&[Event::Stop { master: Master::Zero }], &[Event::Tick]);
    assert_eq!(orders(&a, &b, &Wanted::Groups, How::default()).refused, None);
    let why = "a.script, b.script: in all 2 orders an event is refused; first: 01";
    assert_eq!(orders(&a, &b, &Wanted::Groups, strict).refused.as_deref(), Some(why));
    let good = inputs(&asks(Master::Zero, 0x01), &asks(Master::One, 0x01));
    assert_eq!(orders(&good[0], &good[1], &Wanted::Groups, strict).refused, None);
}

/// On a TPT29641, by the library's steps, which the text says; its write pointer rolls, and so a byte
/// comes to CONTR that asks for the bus.
#[test]
fn the_other_part_is_tried_if_asked_for() {
    let master = Master::Zero;
    let mut rolls = vec![Event::Command { master, code: 0x87 }];
    rolls.extend([0, 0, 1].map(|value| Event::Write { master, value }));
    rolls.push(Event::Stop { master });
    for named in Part::BOTH {
        let script = |events: &[Event]| write_script(pins(), named, events);
        let (a, b) = (input("a", script(&rolls)), input("b", script(&[Event::Tick])));
        for part in Part::BOTH {
            let how = How { part: Some(part), strict: true };
            let made = |wanted| orders(&a, &b, &wanted, how);
            let text = String::from_utf8(made(Wanted::Groups).output.unwrap()).unwrap();
            let first = text.lines().next().unwrap();
            let steps = ", by the library's steps: the call that is proved to list all orders is a PCA9641's";
            let on = format!(", each on a {part} fresh from power-up");
            match part {
                Part::Pca9641 => assert!(first.ends_with(&on), "{first}"),
                _ => assert!(first.ends_with(&format!("{on}{steps}")), "{first}"),
            }
            let owns = text
                .contains("in all 6 orders controller 0 owns the bus (ground: sole requester)\n");
            assert_eq!(owns, part == Part::Tpt29641, "{text}");
            assert_eq!(
                text.contains("b --part TPT29641 --order 0"),
                part == Part::Tpt29641,
                "{text}"
            );
            let trace = made(Wanted::Trace("000001".to_string())).output.unwrap();
            assert_eq!(gunwaleish::run(&trace).unwrap().part, part);
            let script = made(Wanted::Script("000001".to_string())).output.unwrap();
            assert!(String::from_utf8(script).unwrap().contains(&format!("\npart {part}\n")));
        }
    }
}
