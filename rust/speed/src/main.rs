//! speed [TIMES [MIX]]: times the proved library against plain Rust, best and median of so many; all mixes of
//! traces and all kinds of captures, or the one mix or kind of this name.

use std::hint::black_box;

use model::capture::MOST_SAMPLES;
use speed::captures::{kinds, Captures};
use speed::decoder;
use speed::mixes::{mixes, Mix};
use speed::saying::say;
use speed::timing::{by_turns, Times};
use stepper::reading::Report;
use stepper::{plain, tuned};

const USUAL_TIMES: usize = 300;
const ROOM: usize = 4 * 4096;

type RunTrace = fn(&[u8], &mut [u8]) -> Result<Report, u8>;

/// The two steppers of docs/stepper.
const STEPPERS: [RunTrace; 2] = [plain::run_trace, tuned::run_trace];

fn main() {
    let times = std::env::args().nth(1).map_or(Some(USUAL_TIMES), |word| word.parse().ok());
    let Some(times) = times.filter(|&times| times > 0) else {
        stop("usage: speed [TIMES [MIX]]");
    };
    let wanted = std::env::args().nth(2);
    let is_wanted = |name: &str| wanted.as_deref().is_none_or(|wanted| wanted == name);
    let mixes = mixes().unwrap_or_else(|why| stop(&format!("speed: {why}")));
    let mixes: Vec<Mix> = mixes.into_iter().filter(|mix| is_wanted(mix.name)).collect();
    let kinds: Vec<Captures> = kinds().into_iter().filter(|kind| is_wanted(kind.name)).collect();
    if mixes.is_empty() && kinds.is_empty() {
        stop("speed: there is no mix or kind of captures of this name");
    }
    say(&format!(
        "Best of {times} by turns, and the median in brackets. A ratio is the other's time by the"
    ));
    say("proved library's: above 1 the proved library is faster.");
    if !mixes.is_empty() {
        say(
            "Full traces of 4,096 events, read and answered, against the steppers of docs/stepper:",
        );
    }
    for mix in mixes {
        stop_at(mix.name, differing(&mix));
        time(&mix, times);
    }
    if !kinds.is_empty() {
        say(&format!(
            "Captures of up to {MOST_SAMPLES} samples, imported, against a plain decoder:"
        ));
    }
    for captures in kinds {
        stop_at(captures.name, differing_captures(&captures));
        time_captures(&captures, times);
    }
}

fn stop(why: &str) -> ! {
    eprintln!("{why}");
    std::process::exit(2);
}

/// Nothing is timed before all give the same.
fn stop_at(name: &str, differing: Option<usize>) {
    if let Some(place) = differing {
        say(&format!("{name}: number {place} is not answered alike; nothing is timed"));
        std::process::exit(1);
    }
}

/// The place of a trace that one of them refuses or that they answer differently.
fn differing(mix: &Mix) -> Option<usize> {
    mix.traces.iter().position(|trace| {
        let mut proved = vec![0xEE; ROOM];
        let report = gunwaleish::run_trace(trace, &mut proved).ok();
        let report = report.map(|found| (found.address, found.events, found.part.number()));
        report.is_none()
            || STEPPERS.iter().any(|run_trace| {
                let mut answers = vec![0xEE; ROOM];
                let said = run_trace(trace, &mut answers).ok();
                let said = said.map(|told| (told.address, told.events, told.kind as u8));
                report != said || proved != answers
            })
    })
}

fn differing_captures(captures: &Captures) -> Option<usize> {
    captures.all.iter().position(|(samples, address)| {
        let (mut proved, mut plain) = (vec![0xEE; ROOM], vec![0xEE; ROOM]);
        let count = gunwaleish::import_capture_into(samples, *address, &mut proved).ok();
        let said = decoder::import_capture(samples, *address, &mut plain).ok();
        count != said || said.is_none() || proved != plain
    })
}

/// All traces of a mix, once in each turn, each with the same buffer.
fn time(mix: &Mix, times: usize) {
    let mut answers = [const { [0; ROOM] }; 3];
    let [ours, first, second] = &mut answers;
    let [library, plain, tuned] = by_turns(
        times,
        mix.traces.len() * ROOM / 4,
        [
            &mut || {
                for trace in &mix.traces {
                    let _ = black_box(gunwaleish::run_trace(black_box(trace), black_box(ours)));
                }
            },
            &mut || {
                for trace in &mix.traces {
                    let _ = black_box(plain::run_trace(black_box(trace), black_box(first)));
                }
            },
            &mut || {
                for trace in &mix.traces {
                    let _ = black_box(tuned::run_trace(black_box(trace), black_box(second)));
                }
            },
        ],
    );
    let ns = |times: Times| format!("{:6.2} ({:6.2})", times.best, times.median);
    let ratio = |other| {
        let ratio = library.against(other);
        format!("{:.2} ({:.2})", ratio.best, ratio.median)
    };
    say(&format!(
        "{:<11} {:4.1} % TICK, ns an event: library {}, plain {}, tuned {}; ratio to plain {}, to tuned {}",
        mix.name,
        mix.ticks(),
        ns(library),
        ns(plain),
        ns(tuned),
        ratio(plain),
        ratio(tuned)
    ));
}

/// All captures of a kind, once in each turn.
fn time_captures(captures: &Captures, times: usize) {
    let (mut events, mut others) = (vec![0; ROOM], vec![0; ROOM]);
    let samples: usize = captures.all.iter().map(|(samples, _)| samples.len()).sum();
    let [library, plain] = by_turns(
        times,
        samples,
        [
            &mut || {
                for (samples, address) in &captures.all {
                    let samples = black_box(&samples[..]);
                    let _ =
                        black_box(gunwaleish::import_capture_into(samples, *address, &mut events));
                }
            },
            &mut || {
                for (samples, address) in &captures.all {
                    let samples = black_box(&samples[..]);
                    let _ = black_box(decoder::import_capture(samples, *address, &mut others));
                }
            },
        ],
    );
    let rate =
        |times: Times| format!("{:6.1} ({:6.1})", 1000.0 / times.best, 1000.0 / times.median);
    let ratio = library.against(plain);
    say(&format!(
        "{:<17} million samples a second: library {}, plain {}; ratio {:.2} ({:.2})",
        captures.name,
        rate(library),
        rate(plain),
        ratio.best,
        ratio.median
    ));
}
