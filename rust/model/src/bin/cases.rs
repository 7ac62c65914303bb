//! cases SEED COUNT LEN: prints COUNT random event lists of LEN events for a PCA9641.
//! A line holds the events in hex, a space, and the answers in hex.

use std::io::{self, BufWriter, Write};

use model::trace::hex;
use model::traces::{event_list, seed_of};
use model::Device;

fn main() -> io::Result<()> {
    let numbers: Vec<u64> = std::env::args().skip(1).filter_map(|a| a.parse().ok()).collect();
    let [seed, count, length] = numbers[..] else {
        eprintln!("usage: cases SEED COUNT LEN");
        std::process::exit(2);
    };
    let mut out = BufWriter::new(io::stdout().lock());
    for place in 0..count {
        let events = event_list(seed_of(seed, place), length as usize);
        let mut device = Device::power_up();
        let answers: Vec<[u8; 4]> = events.iter().map(|event| device.step(*event)).collect();
        writeln!(out, "{} {}", hex(&events.concat()), hex(&answers.concat()))?;
    }
    out.flush()
}
