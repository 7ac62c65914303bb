//! Any bytes as a trace: no panic, and every refusal is told with its number and its place.

use std::fs;
use std::io::Write;
use std::process::{Command, Stdio};

use gunwaleish_tool::commands::{convert, decompose, explain, list, picture, wave};
use gunwaleish_tool::each::Made;
use gunwaleish_tool::files::Input;
use model::damage::{damage, Damage, ALL_DAMAGES};
use model::rng::Rng;
use model::traces::{event_list, old_trace_of, trace, trace_of};

const MAKERS: [fn(&Input) -> Made; 5] =
    [list::list, explain::explain, decompose::decompose, wave::wave, picture::picture];

fn make_all(bytes: &[u8]) -> Vec<Made> {
    let input = Input { name: "a <trace>".to_string(), bytes: bytes.to_vec() };
    MAKERS.map(|make| make(&input)).into()
}

#[test]
fn good_traces_give_everything() {
    for seed in 0..120 {
        for made in make_all(&trace(seed, (seed as usize * 13) % 500)) {
            assert!(made.output.is_some_and(|bytes| !bytes.is_empty()));
            assert_eq!(made.refused, None);
        }
    }
}

#[test]
fn damaged_traces_are_refused_by_number_and_place() {
    let mut rng = Rng::new(3);
    for seed in 0..60 {
        let good = trace(seed, 1 + seed as usize % 30);
        for kind in ALL_DAMAGES {
            // There is always room here.
            if kind == Damage::RoomTooSmall {
                continue;
            }
            let refused = damage(&mut rng, &good, kind);
            for (place, made) in make_all(&refused.trace).into_iter().enumerate() {
                let said = made.refused.unwrap();
                assert!(said.contains(&format!("refusal {}: ", refused.number)), "{said}");
                assert!(seen_at(&said) <= refused.trace.len(), "{said}");
                // A listing says it in its own way, and nothing else is written.
                let listing = (place == 0).then(|| format!("R{}\n", refused.number).into_bytes());
                assert_eq!(made.output, listing);
            }
        }
    }
}

fn seen_at(said: &str) -> usize {
    let place = said.rsplit("seen at byte ").next().unwrap();
    let digits = place.find(|letter: char| !letter.is_ascii_digit()).unwrap();
    place[..digits].parse().unwrap()
}

/// An old trace is refused with what to do about it, and converted; nothing else is.
#[test]
fn old_traces_are_told_and_converted() {
    let mut rng = Rng::new(105);
    let hint = "; it is an old trace, which names no part: gunwaleish convert gives it PCA9641)";
    let convert = |bytes: &[u8]| {
        convert::convert(&Input { name: "old.trace".to_string(), bytes: bytes.to_vec() })
    };
    for seed in 0..60 {
        let events = event_list(seed, seed as usize);
        let old = old_trace_of([0, 0, 0, 1], &events);
        let converted = convert(&old);
        assert_eq!(converted.refused, None);
        assert_eq!(converted.output, Some(trace_of([0, 0, 0, 1], &events)));
        for made in make_all(&old) {
            let said = made.refused.unwrap();
            assert!(said.contains("refusal 5: ") && said.ends_with(hint), "{said}");
            assert_eq!(seen_at(&said), old.len());
        }
        let new = trace(seed, 1 + seed as usize);
        let made = convert(&new);
        assert_eq!(made.output, None);
        let said = made.refused.unwrap();
        assert!(said.contains("refusal 7: ") && said.contains("it is a new trace"), "{said}");
        assert_eq!(seen_at(&said), new.len() - 2);
        for kind in ALL_DAMAGES {
            let bad = damage(&mut rng, &new, kind).trace;
            let (made, expected) = (convert(&bad), model::converter::converted(&bad));
            assert_eq!(made.output, expected.clone().ok());
            let Err(number) = expected else { continue };
            let said = made.refused.unwrap();
            assert!(said.starts_with(&format!("old.trace: refusal {number}: ")), "{said}");
            assert!(seen_at(&said) <= bad.len(), "{said}");
        }
    }
}

#[test]
fn the_place_of_each_refusal() {
    let cases: [(&[u8], usize); 14] = [
        (&[], 0),
        (&[3], 0),
        (&[4, 0, 0], 3),
        (&[4, 0, 0, 7, 0, 0, 0], 3),
        (&[4, 1, 0, 0, 0, 0, 0], 1),
        (&[4, 0, 0, 0, 0, 1], 6),
        (&[4, 0, 0, 0, 0, 1, 16], 5),
        (&[4, 0, 0, 0, 0, 1, 0, 6, 0], 9),
        (&[4, 0, 0, 0, 0, 1, 0, 6, 0, 0, 0, 9], 11),
        (&[4, 0, 0, 0, 0, 0, 0, 1], 8),
        (&[4, 0, 0, 0, 0, 0, 0, 1, 2], 8),
        (&[4, 0, 0, 0, 0, 1, 0, 6, 0, 0, 0, 1, 255, 9], 12),
        (&[4, 0, 0, 0, 0, 0, 0, 1, 0, 9, 9], 9),
        (&[4, 0, 0, 0, 0, 1, 0, 6, 0, 0, 0, 1, 1, 9], 13),
    ];
    for (bytes, place) in cases {
        let said = make_all(bytes)[0].refused.clone().unwrap();
        assert_eq!(seen_at(&said), place, "{bytes:?}: {said}");
    }
}

#[test]
fn random_bytes_do_no_harm() {
    let mut rng = Rng::new(5);
    for _ in 0..3000 {
        let bytes: Vec<u8> = (0..rng.below(60)).map(|_| rng.byte()).collect();
        make_all(&bytes);
        let event = |rng: &mut Rng| [rng.below(12) as u8, rng.below(3) as u8, rng.byte(), 0];
        let events: Vec<[u8; 4]> = (0..rng.below(20)).map(|_| event(&mut rng)).collect();
        make_all(&trace_of([0; 4], &events));
    }
}

/// A line has its letter from the head, one value, and times that only rise.
#[test]
fn waveforms_are_in_order() {
    for seed in 0..40 {
        let made = wave::wave(&Input { name: String::new(), bytes: trace(seed, 400) });
        let text = String::from_utf8(made.output.unwrap()).unwrap();
        let (head, body) = text.split_once("$enddefinitions $end\n").unwrap();
        let letters: Vec<&str> = head
            .lines()
            .filter_map(|line| line.strip_prefix("$var "))
            .filter_map(|line| line.split(' ').nth(2))
            .collect();
        let mut last = None;
        for line in body.lines().filter(|line| !line.starts_with('$')) {
            if let Some(time) = line.strip_prefix('#') {
                let time: u64 = time.parse().unwrap();
                assert!(last < Some(time), "{line}");
                last = Some(time);
            } else {
                assert!(letters.iter().any(|letter| line.ends_with(letter)), "{line}");
            }
        }
    }
}

/// A reader that is not ours takes the waveforms: vcd2fst, which comes with GTKWave.
#[test]
fn gtkwave_reads_the_waveforms() {
    if Command::new("vcd2fst").arg("--help").output().is_err() {
        return println!("skipped: vcd2fst is not installed (it comes with GTKWave)");
    }
    let folder = std::env::temp_dir().join(format!("gunwaleish-wave-{}", std::process::id()));
    fs::create_dir_all(&folder).unwrap();
    for seed in 0..6 {
        let made = wave::wave(&Input { name: String::new(), bytes: trace(seed, 300) });
        let (vcd, fst) = (folder.join("a.vcd"), folder.join("a.fst"));
        fs::write(&vcd, made.output.unwrap()).unwrap();
        let read = Command::new("vcd2fst").args([&vcd, &fst]).output().unwrap();
        let said = [read.stdout, read.stderr].concat();
        assert!(read.status.success(), "{}", String::from_utf8_lossy(&said));
        assert!(fs::metadata(&fst).unwrap().len() > 500);
    }
    fs::remove_dir_all(&folder).unwrap();
}

/// The pictures are well-formed, also with a name that has to be escaped.
#[test]
fn pictures_close_what_they_open() {
    for seed in 0..30 {
        let input = Input { name: "a <\"&\u{7}> b".into(), bytes: trace(seed, 200) };
        let text = String::from_utf8(picture::picture(&input).output.unwrap()).unwrap();
        assert!(text.starts_with("<svg ") && text.ends_with("</svg>\n"));
        assert!(text.contains("a &lt;&quot;&amp;?&gt; b"));
        for element in ["text", "rect", "title"] {
            let opened = text.matches(&format!("<{element} ")).count()
                + text.matches(&format!("<{element}>")).count();
            let alone = text
                .lines()
                .filter(|line| line.starts_with(&format!("<{element} ")) && line.ends_with("/>"));
            let closed = text.matches(&format!("</{element}>")).count();
            assert_eq!(opened, alone.count() + closed, "{element}");
        }
    }
}

/// Nobody reads the output any more: the tool ends quietly.
#[test]
fn a_closed_pipe_ends_quietly() {
    let mut child = Command::new(env!("CARGO_BIN_EXE_gunwaleish"))
        .arg("list")
        .stdin(Stdio::piped())
        .stdout(Stdio::piped())
        .stderr(Stdio::piped())
        .spawn()
        .unwrap();
    drop(child.stdout.take());
    child.stdin.take().unwrap().write_all(&trace(1, 4096)).unwrap();
    let ended = child.wait_with_output().unwrap();
    assert_eq!((ended.status.code(), ended.stderr.len()), (Some(0), 0));
}
