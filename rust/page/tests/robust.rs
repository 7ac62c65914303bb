//! Whatever is asked, there is an answer: no request panics, and what is no request, or far too long, is refused in a line.
//!
//! `SECONDS=60 cargo test --release --offline --manifest-path rust/page/Cargo.toml --test robust` asks for a minute; else it is two seconds.

mod common;

use std::time::{Duration, Instant};

use common::{ask, at_root, file, files, read};
use gunwaleish_page::fields::join;
use gunwaleish_page::REQUESTS;

/// A generator of numbers, by xorshift.
struct Numbers(u64);

impl Numbers {
    fn next(&mut self) -> u64 {
        self.0 ^= self.0 << 13;
        self.0 ^= self.0 >> 7;
        self.0 ^= self.0 << 17;
        self.0
    }

    fn below(&mut self, most: usize) -> usize {
        (self.next() % most.max(1) as u64) as usize
    }

    fn bytes(&mut self, most: usize) -> Vec<u8> {
        (0..self.below(most)).map(|_| self.next() as u8).collect()
    }

    /// A file, damaged in a few places, cut, or with something put in.
    fn damaged(&mut self, mut bytes: Vec<u8>) -> Vec<u8> {
        for _ in 0..self.below(4) {
            let at = self.below(bytes.len());
            match self.below(4) {
                0 if !bytes.is_empty() => bytes[at] = self.next() as u8,
                1 => bytes.truncate(at),
                2 => _ = bytes.splice(at..at, self.bytes(20)),
                _ => bytes.extend(self.bytes(6)),
            }
        }
        bytes
    }
}

const WORDS: [&[u8]; 16] = [
    b"",
    b"71",
    b"0x70",
    b"PCA9641",
    b"TPT29641",
    b"0",
    b"4096",
    b"1000000",
    b"csv",
    b"--most",
    b"--without-limit",
    b"both",
    b"board.sheet",
    b"x/house.sheet",
    b"--folder",
    b"000000111111",
];

#[test]
fn random_requests() {
    at_root();
    let seconds = std::env::var("SECONDS").ok().and_then(|word| word.parse().ok()).unwrap_or(2);
    let seed = std::env::var("SEED").ok().and_then(|word| word.parse().ok());
    let seed: u64 = seed.unwrap_or_else(|| std::process::id().into());
    println!("SEED={seed}");
    let mut numbers = Numbers(0x9E37_79B9_7F4A_7C15 ^ seed);
    let names: Vec<String> =
        ["traces", "sheets", "releases"].iter().flat_map(|folder| files(folder, "")).collect();
    let samples: Vec<Vec<u8>> = names.iter().map(|name| file(name)).collect();
    let (end, mut asked, mut refused) = (Instant::now() + Duration::from_secs(seconds), 0, 0);
    while Instant::now() < end {
        let name = match numbers.below(20) {
            0 => numbers.bytes(12),
            _ => REQUESTS[numbers.below(REQUESTS.len())].0.as_bytes().to_vec(),
        };
        let mut fields = vec![name];
        for _ in 0..numbers.below(9) {
            let place = numbers.below(samples.len());
            fields.push(match numbers.below(5) {
                0 => WORDS[numbers.below(WORDS.len())].to_vec(),
                1 => numbers.bytes(300),
                2 => names[place].clone().into_bytes(),
                3 => samples[place].clone(),
                _ => numbers.damaged(samples[place].clone()),
            });
        }
        let request = join(&fields);
        let request = if numbers.below(30) == 0 { numbers.damaged(request) } else { request };
        refused += usize::from(!read(&gunwaleish_page::ask(&request)).ok);
        asked += 1;
    }
    println!("{asked} requests, {refused} refused");
    assert!(asked > 100 && refused > 10 && refused < asked, "{asked} requests, {refused} refused");
}

/// A hundred megabytes of noise, and none at all, for every request: an answer, and where a file is wanted a refusal with one line.
#[test]
fn too_much_and_nothing() {
    at_root();
    let mut numbers = Numbers(1);
    let noise: Vec<u8> = (0..100 << 17).flat_map(|_| numbers.next().to_le_bytes()).collect();
    let want_no_file = ["identity", "what", "boxes", "words", "samples"];
    let want_a_name_first = ["release", "share"];
    for (name, _) in REQUESTS {
        for bytes in [&noise[..], &[]] {
            let answer = match want_a_name_first.contains(&name) {
                true => ask(name, &[b"x", bytes]),
                false => ask(name, &[bytes]),
            };
            if !want_no_file.contains(&name) {
                assert!(!answer.ok, "{name}");
                let why = answer.text(0);
                assert!(!why.is_empty() && why.len() < 1000, "{name}: {why}");
            }
        }
    }
    // A name may be anything, too.
    assert!(ask("compose", &[b"x", &noise]).text(0).len() < 20_000);
    assert_eq!(ask("what", &[b"noise", &noise]).text(0), "unknown");
    assert_eq!(ask("what", &[b"", b""]).text(0), "empty");
    assert!(!read(&gunwaleish_page::ask(&noise)).ok);
    assert!(!read(&gunwaleish_page::ask(&[])).ok);
}

#[test]
fn too_many_events() {
    at_root();
    let text = |ticks: &str| format!("pins 0 0 0 1\npart PCA9641\ntick 4096\n{ticks}");
    let full = ask("compose", &[text("").as_bytes()]);
    assert!(full.ok);
    for request in ["explain", "story", "picture", "vcd", "states", "script"] {
        assert!(ask(request, &[&full.fields[0]]).ok, "{request}");
    }
    let answer = ask("compose", &[text("\ntick").as_bytes()]);
    assert_eq!((answer.ok, answer.text(1)), (false, "5"));
    assert!(answer.text(0).starts_with("line 5: refusal 6"), "{}", answer.text(0));
    let mut trace = full.fields[0].clone();
    (trace[5], trace[6]) = (0x01, 0x10);
    trace.splice(7..7, [6, 0, 0, 0]);
    for request in ["listing", "explain", "picture", "state", "states", "vcd"] {
        let answer = ask(request, &[&trace, b"1"]);
        assert!(
            !answer.ok && answer.text(0).contains("refusal 6"),
            "{request}: {}",
            answer.text(0)
        );
    }
}
