//! Scripts: read and written again, and told apart from what is no script.

use gunwaleish::{run, write_trace, Event, Part};
use gunwaleish_tool::commands::compose::compose;
use gunwaleish_tool::commands::decompose::decompose;
use gunwaleish_tool::files::Input;
use gunwaleish_tool::script::{read_script, write_script};
use model::rng::Rng;
use model::traces::trace;

fn input(bytes: &[u8]) -> Input {
    Input { name: "a.script".to_string(), bytes: bytes.to_vec() }
}

/// What composing this script gives, or what is said of it.
fn composed(text: &str) -> Result<Vec<u8>, String> {
    let made = compose(&input(text.as_bytes()));
    made.output.ok_or_else(|| made.refused.unwrap())
}

fn same_again(trace: &[u8]) {
    let script = decompose(&input(trace)).output.unwrap();
    let again = compose(&input(&script));
    assert_eq!(again.refused, None);
    assert!(again.output.unwrap() == trace);
}

#[test]
fn what_was_decomposed_is_composed_again() {
    for seed in 0..300 {
        same_again(&trace(seed, (seed as usize * 7) % 200));
    }
    same_again(&trace(1, 4096));
}

/// Events of any bytes, of which most are none.
#[test]
fn any_bytes_are_composed_again() {
    let mut rng = Rng::new(1);
    for _ in 0..200 {
        let mut event = || [rng.below(12) as u8, rng.byte() & 3, rng.byte(), rng.byte() & 1];
        let events: Vec<[u8; 4]> = (0..50).map(|_| event()).collect();
        let part = rng.pick(&Part::BOTH);
        same_again(&write_trace([0; 4], part, &events).unwrap());
    }
}

#[test]
fn each_kind_has_its_line() {
    let text = "pins 0 0 0 1\npart TPT29641\ncommand 0 03\nwrite 1 32\nread 0\nstop 1\npair 01 81\nlines 1 0 1\n\
                tick\nreset\ntick 50\npulse 0\ngeneral 1 06\nraw FF 00 00 00\n";
    let trace = composed(text).unwrap();
    let run = run(&trace).unwrap();
    assert_eq!(run.part, Part::Tpt29641);
    assert_eq!(write_script(run.pins, run.part, &run.events), text);
    assert_eq!(run.events.iter().filter(|&&event| event == Event::Tick).count(), 51);
}

#[test]
fn spaces_comments_and_capitals_do_not_matter() {
    let plain = composed("pins 0 0 0 0\npart TPT29641\nwrite 0 0A\ntick 2\n").unwrap();
    let other = "\u{FEFF}# head\r\n\r\nPart  tpt29641# part\r\n  PINS 0 0\t0 00 # straps\r\n\
                 Write 0 a\r\n\ttick 2#x\r\n";
    assert_eq!(composed(other).unwrap(), plain);
}

#[test]
fn what_cannot_be_read_is_told() {
    let cases = [
        ("", "a.script, line 1: the line ends, expected pins, which the script has nowhere"),
        ("tick\npins 0 0 0 0", "line 1: 'tick', expected pins before the first event"),
        ("pins 0 0 0 0\npins 0 0 0 0", "line 2: 'pins', expected an event, since the pins"),
        ("pins 0 0 0", "line 1: the line ends, expected a byte in hex, 00 to FF"),
        ("pins 0 0 0 0\nwirte 0 01", "line 2: 'wirte', expected command, write, read"),
        ("pins 0 0 0 0\nwrite 2 01", "line 2: '2', expected a controller, 0 or 1"),
        ("pins 0 0 0 0\nwrite 0 G1", "line 2: 'G1', expected a byte in hex"),
        ("pins 0 0 0 0\nwrite 0 100", "line 2: '100', expected a byte in hex"),
        ("pins 0 0 0 0\nwrite 0 +1", "line 2: '+1', expected a byte in hex"),
        ("pins 0 0 0 0\n\nlines 1 2 1", "line 3: '2', expected a level, 0 or 1"),
        ("pins 0 0 0 0\ntick 0", "line 2: '0', expected a count of ticks"),
        ("pins 0 0 0 0\ntick 4097", "line 2: '4097', expected a count of ticks"),
        ("pins 0 0 0 0\npart PCA9641\nreset now", "line 3: 'now', expected the line's end"),
        ("pins 0 0 0 0\nraw 1 2 3", "line 2: the line ends, expected a byte"),
        ("part PCA9641", "line 1: the line ends, expected pins, which the script has nowhere"),
        (
            "pins 0 0 0 0\npart",
            "line 2: the line ends, expected the name of a part, PCA9641 or TPT",
        ),
        ("pins 0 0 0 0\npart 0", "line 2: '0', expected the name of a part"),
        ("pins 0 0 0 0\npart PCA9541", "line 2: 'PCA9541', expected the name of a part"),
        ("part PCA9641\npart PCA9641", "line 2: 'part', expected an event, since the part is"),
        ("part PCA9641 TPT29641", "line 1: 'TPT29641', expected the line's end"),
        ("part PCA9641\npins 1 0 0 0\ntick", "a.script, line 2: refusal 8: "),
        ("pins 0 0 0 0\npart PCA9641\ntick 4096\n\ntick", "a.script, line 5: refusal 6: "),
    ];
    for (text, expected) in cases {
        let said = composed(text).unwrap_err();
        assert!(said.contains(expected), "{text:?} gives: {said}");
    }
}

/// A script without its part is refused in plain words, and nothing is taken for it.
#[test]
fn a_script_names_its_part() {
    let why = "a script names its part, since a kind left out and read as a default is how the \
               incident came about";
    let cases = [
        ("pins 0 0 0 0\n", "line 2: the line ends, expected part PCA9641 or part TPT29641, which"),
        ("pins 0 0 0 0\ntick", "line 2: 'tick', expected part PCA9641 or part TPT29641 before the"),
        ("pins 0 0 0 0\ntick\npart PCA9641", "line 2: 'tick', expected part PCA9641 or part"),
    ];
    for (text, expected) in cases {
        let said = composed(text).unwrap_err();
        assert!(said.contains(expected) && said.ends_with(why), "{text:?} gives: {said}");
    }
    for part in Part::BOTH {
        let trace = composed(&format!("pins 0 0 0 0\npart {part}\ntick\n")).unwrap();
        assert_eq!(trace[trace.len() - 2..], [1, part.number()]);
    }
}

/// Good scripts with some bytes changed, taken out or put in: no panic, and what is refused is told
/// in one line of a fair length.
#[test]
fn damaged_scripts_are_told() {
    let mut rng = Rng::new(7);
    let mut refused = 0;
    for seed in 0..2000 {
        let good = run(&trace(seed, 20)).unwrap();
        let mut text = write_script(good.pins, good.part, &good.events).into_bytes();
        for _ in 0..rng.between(1, 4) {
            let place = rng.below(text.len() as u64) as usize;
            let byte = rng.pick(b"0123456789ABCDEFGabcxyz #\n\t\r\0\xFF\x80-+");
            match rng.below(3) {
                0 => text[place] = byte,
                1 => text.insert(place, byte),
                _ => drop(text.remove(place)),
            }
        }
        let made = compose(&input(&text));
        assert_eq!(made.output.is_some(), made.refused.is_none());
        if let Some(said) = made.refused {
            assert!(said.len() < 300 && !said.contains(['\n', '\0', '\r']), "{said:?}");
            refused += 1;
        }
    }
    assert!(refused > 500, "{refused}");
}

/// Millions of ticks take no more room than a trace may have.
#[test]
fn too_many_ticks_are_not_kept() {
    let text = "pins 0 0 0 0\npart PCA9641\n".to_string() + &"tick 4096\n".repeat(1000);
    let script = read_script(text.as_bytes()).unwrap();
    assert_eq!((script.events.len(), script.overflow_line), (4097, Some(4)));
    assert!(composed(&text).unwrap_err().contains("refusal 6"));
}
