//! happenings SEED COUNT LEN: counts what happens in the lists of `cases`, on each kind of part.

use model::happenings::{kinds_of, Happenings};
use model::part::BOTH_KINDS;
use model::traces::{event_list_of, seed_of};

fn main() {
    let numbers: Vec<u64> = std::env::args().skip(1).filter_map(|a| a.parse().ok()).collect();
    let [seed, count, length] = numbers[..] else {
        eprintln!("usage: happenings SEED COUNT LEN");
        std::process::exit(2);
    };
    for kind in BOTH_KINDS {
        let mut happenings = Happenings::default();
        for place in 0..count {
            happenings.run(kind, &event_list_of(kind, seed_of(seed, place), length as usize));
        }
        println!("{kind:?}");
        for name in kinds_of(kind) {
            println!("{:>10}  {name}", happenings.count(name));
        }
    }
}
