//! A watched bus: how many samples a second the proved listener takes, at rest and busy, against the plain
//! decoder of this crate, which makes events and steps no device, and against sigrok-cli's decoder of the I2C
//! bus where it is installed, in one run. It goes by the clock, so it wants a quiet machine. `watch_rate [ROUNDS]`.

use std::fs;
use std::hint::black_box;
use std::path::Path;
use std::process::{Command, Stdio};
use std::time::Instant;

use gunwaleish::{Part, Watch, WatchSettings, MOST_SAMPLES};
use model::wire::play::play;
use model::wire::random::{scene, Sort};
use speed::captures::{kinds, Captures};
use speed::decoder;
use speed::saying::say;
use speed::timing::{by_turns, Times};

/// At 1 MHz.
const OF_TICK: u32 = 1000;
/// Both buses at rest, the bus below too.
const REST: u8 = 0x7F;
/// So many samples are given to sigrok-cli, at rest and busy.
const FOR_SIGROK: [usize; 2] = [16_000_000, 400_000];

fn main() {
    let rounds = match std::env::args().nth(1).map(|word| word.parse::<usize>()) {
        None => 60,
        Some(Ok(rounds)) if rounds > 0 => rounds,
        Some(_) => {
            eprintln!("usage: watch_rate [ROUNDS], a number from 1 on");
            std::process::exit(2);
        }
    };
    say(&format!(
        "Million samples a second, best of {rounds} by turns and the median in brackets; 1,000 samples are a TICK:"
    ));
    let rest = Captures { name: "at rest", all: vec![(vec![REST; MOST_SAMPLES], 0x70); 8] };
    compare(&rest, rounds);
    sigrok(&rest, FOR_SIGROK[0]);
    for captures in [right()].into_iter().chain(kinds()) {
        compare(&captures, rounds);
        sigrok(&captures, FOR_SIGROK[1]);
    }
}

/// A right chip on busy buses, as the independent generator plays it. In the other kinds the bytes that are
/// read are any, so that nearly every READ differs, and the listener stops there.
fn right() -> Captures {
    let played = (0..).map(|seed| play(&scene(Sort::Apart, seed)));
    let short = played.filter(|played| played.samples.len() <= MOST_SAMPLES).take(8);
    let all = short.map(|played| (played.samples, played.setting.address)).collect();
    Captures { name: "a right chip", all }
}

/// The listener and the plain decoder take each capture by itself, the listener a fresh one each time.
fn compare(captures: &Captures, rounds: usize) {
    let samples: usize = captures.all.iter().map(|(samples, _)| samples.len()).sum();
    let mut heard = 0;
    let mut events = vec![0; 4 * 4096];
    let [library, plain] = by_turns(
        rounds,
        samples,
        [
            &mut || {
                heard = 0;
                for (samples, address) in &captures.all {
                    let mut watch = fresh(*address);
                    listen(&mut watch, black_box(samples));
                    heard += watch.events();
                }
            },
            &mut || {
                for (samples, address) in &captures.all {
                    let samples = black_box(&samples[..]);
                    let _ = black_box(decoder::import_capture(samples, *address, &mut events));
                }
            },
        ],
    );
    let rate =
        |times: Times| format!("{:6.1} ({:6.1})", 1000.0 / times.best, 1000.0 / times.median);
    let ratio = library.against(plain);
    say(&format!(
        "{:<17} {:4.1} samples an event: listener {}, plain decoder without a device {}; ratio {:.2} ({:.2})",
        captures.name,
        samples as f64 / heard as f64,
        rate(library),
        rate(plain),
        ratio.best,
        ratio.median
    ));
}

fn fresh(address: u8) -> Watch {
    let settings = WatchSettings { part: Part::Pca9641, address, every: OF_TICK, below: false };
    Watch::fresh(settings).expect("the address is one")
}

fn listen(watch: &mut Watch, samples: &[u8]) {
    let mut rest = samples;
    while !rest.is_empty() {
        let taken = watch.listen(rest);
        rest = &rest[taken.max(1)..];
    }
}

/// sigrok's decoder over each bus of the same samples, and the listener over the same file's samples once.
fn sigrok(captures: &Captures, least: usize) {
    if Command::new("sigrok-cli").arg("--version").output().is_err() {
        return say("                  sigrok-cli is not installed");
    }
    let mut samples = vec![];
    while samples.len() < least {
        captures.all.iter().for_each(|(own, _)| samples.extend_from_slice(own));
    }
    let file =
        std::env::temp_dir().join(format!("gunwaleish-watch-rate-{}.capture", std::process::id()));
    if let Err(error) = fs::write(&file, &samples) {
        eprintln!("watch_rate: {}: {error}", file.display());
        std::process::exit(2);
    }
    let begun = Instant::now();
    let decoded = [["0", "1"], ["2", "3"]].iter().all(|bus| decode(&file, bus));
    let took = begun.elapsed().as_secs_f64();
    // A file that is not there any more needs nothing.
    let _ = fs::remove_file(&file);
    let begun = Instant::now();
    listen(&mut fresh(captures.all[0].1), &samples);
    let ours = begun.elapsed().as_secs_f64();
    match decoded {
        true => say(&format!(
            "                  {:.1} million samples once: sigrok-cli's decoder of both buses {:.3} million a second, \
             listener {:.1}; ratio {:.0}",
            samples.len() as f64 / 1e6,
            samples.len() as f64 / took / 1e6,
            samples.len() as f64 / ours / 1e6,
            took / ours
        )),
        false => say("                  sigrok-cli does not take the samples"),
    }
}

fn decode(file: &Path, [scl, sda]: &[&str; 2]) -> bool {
    let mut command = Command::new("sigrok-cli");
    command.args(["-I", "binary:numchannels=8:samplerate=1000000", "-i"]).arg(file);
    command.args(["-P", &format!("i2c:scl={scl}:sda={sda}"), "-A", "i2c=addr-data"]);
    command.stdout(Stdio::null()).status().is_ok_and(|status| status.success())
}
