//! Mail neither lost nor doubled (#111), over many runs of the model.
//!
//! The books here are kept from document 02's words. Which event fills a box, empties it or is
//! dropped is told from the events and their answers alone: no pointer and no flag of the device is
//! looked at. What a box holds at that moment is the device's.

mod bench;
use bench::*;
use model::part::BOTH_KINDS;
use model::rng::Rng;
use model::traces::event_list_of;

type Word = (u8, u8);
type Bytes = [u8; 4];

/// What the books know of one master: its pointer, and its own box.
#[derive(Clone, Default)]
struct Book {
    pointer: u8,
    counts: bool,
    full: bool,
    /// "The last write to 6 not dropped, else 0."
    low: u8,
    /// "Those the box held right after each write that filled it."
    filled: Vec<Word>,
    /// "The low and high bytes held at each read that empties a box."
    emptied: Vec<Word>,
}

/// What was seen, so that the runs show all of it.
#[derive(Default)]
struct Seen {
    fills: usize,
    empties: usize,
    drops_at_6: usize,
    drops_at_7: usize,
    both_at_once: usize,
    reads_of_an_empty_box: usize,
    ended_while_pending: usize,
    told_of_emptying: usize,
}

struct Run {
    device: Device,
    books: [Book; 2],
    seen: Seen,
}

fn held(device: &Device, m: usize) -> Word {
    (device.masters[m].mail_low, device.masters[m].mail_high)
}

impl Run {
    fn of(kind: Kind) -> Run {
        let device = Device::power_up_of(kind);
        Run { device, books: Default::default(), seen: Seen::default() }
    }

    fn step(&mut self, event: Bytes) -> Bytes {
        let before = self.device.clone();
        let answer = self.device.step(event);
        if answer[0] < 2 {
            self.enter(&before, event, answer);
        }
        for m in [0, 1] {
            self.hold_to_the_law(&before, m);
        }
        answer
    }

    /// Enters an accepted event.
    fn enter(&mut self, before: &Device, event: Bytes, answer: Bytes) {
        let m = usize::from(event[1]);
        match event[0] {
            0 if answer[0] == 0 => {
                self.books[m].pointer = event[2] & 0x07;
                self.books[m].counts = event[2] & 0x80 != 0;
            }
            1 => {
                self.write(m, event[2]);
            }
            2 => self.read(before, m, answer[1]),
            4 => {
                let at = [self.books[0].pointer, self.books[1].pointer];
                let was_full = [self.books[0].full, self.books[1].full];
                self.write(0, event[1]);
                // Each half goes to the other's box, so that the first changes nothing for the second.
                self.write(1, event[2]);
                let fills = at == [7, 7] && was_full == [false, false];
                self.seen.both_at_once += usize::from(fills);
            }
            8 => self.reset(),
            9 if answer[0] == 0 => self.reset(),
            _ => {}
        }
    }

    /// "A write to 6 or 7 goes to the partner's box, acknowledged but dropped while that box is
    /// full."
    fn write(&mut self, m: usize, value: u8) {
        let partner = 1 - m;
        let pointer = self.books[m].pointer;
        let word = held(&self.device, partner);
        let theirs = &mut self.books[partner];
        match (pointer, theirs.full) {
            (6, true) => self.seen.drops_at_6 += 1,
            (7, true) => self.seen.drops_at_7 += 1,
            (6, false) => theirs.low = value,
            (7, false) => {
                assert_eq!(word, (theirs.low, value), "what fills the box");
                theirs.filled.push(word);
                theirs.full = true;
                self.seen.fills += 1;
            }
            _ => {}
        }
        let own = &mut self.books[m];
        if own.counts {
            own.pointer = self.device.kind.pointer_after_write(own.pointer);
        }
    }

    /// "Reading 7 of one's own full box empties it."
    fn read(&mut self, before: &Device, m: usize, byte: u8) {
        let own = &mut self.books[m];
        let word = held(before, m);
        match own.pointer {
            6 => assert_eq!(byte, word.0),
            7 if own.full => {
                assert_eq!(byte, word.1);
                own.emptied.push(word);
                own.full = false;
                self.seen.empties += 1;
                // The sender is told, and the bytes remain.
                assert_ne!(self.device.register(1 - m, 4) & 0x10, 0);
                assert_eq!(held(&self.device, m), word);
            }
            7 => self.seen.reads_of_an_empty_box += 1,
            _ => {}
        }
        if own.counts {
            own.pointer = (own.pointer + 1) % 8;
        }
    }

    fn reset(&mut self) {
        let pending = self.books.iter().filter(|book| book.full).count();
        self.seen.ended_while_pending += pending;
        self.books = Default::default();
    }

    /// "In order, those the box held right after each write that filled it, each once." "At most one
    /// filled word is not yet emptied."
    fn hold_to_the_law(&mut self, before: &Device, m: usize) {
        let own = &self.books[m];
        assert_eq!(self.device.masters[m].pointer, own.pointer);
        assert_eq!(self.device.masters[m].mail_full, own.full);
        assert_eq!(self.device.masters[m].mail_low, own.low);
        assert_eq!(own.filled[..own.emptied.len()], own.emptied[..]);
        let pending = &own.filled[own.emptied.len()..];
        let waiting = if own.full { vec![held(&self.device, m)] } else { vec![] };
        assert_eq!(pending, waiting);
        let told = |device: &Device| device.masters[1 - m].int_status & 0x10 != 0;
        self.seen.told_of_emptying += usize::from(!told(before) && told(&self.device));
    }
}

/// Random events of two masters that do little but mail.
fn mail_events(rng: &mut Rng, length: usize) -> Vec<Bytes> {
    let event = |rng: &mut Rng| {
        let m = rng.below(2) as u8;
        match rng.below(100) {
            0..=29 => command(m, rng.pick(&[0x06, 0x07, 0x86, 0x86, 0x87, 0x04, 0x0E])),
            30..=54 => write(m, rng.byte()),
            55..=74 => read(m),
            75..=89 => pair(rng.byte(), rng.byte()),
            90..=93 => stop(m),
            94..=96 => tick(),
            97 => rng.pick(&[reset(), general_call(m, 0x06)]),
            98 => general_call(m, 0x07),
            _ => [rng.byte(), rng.byte(), rng.byte(), rng.byte()],
        }
    };
    (0..length).map(|_| event(rng)).collect()
}

#[test]
fn over_random_mail() {
    for kind in BOTH_KINDS {
        let mut seen = [0; 8];
        for seed in 0..300 {
            let mut run = Run::of(kind);
            for event in mail_events(&mut Rng::new(seed), 400) {
                run.step(event);
            }
            let all = run.seen;
            let counts = [
                all.fills,
                all.empties,
                all.drops_at_6,
                all.drops_at_7,
                all.both_at_once,
                all.reads_of_an_empty_box,
                all.ended_while_pending,
                all.told_of_emptying,
            ];
            (0..8).for_each(|place| seen[place] += counts[place]);
        }
        assert!(seen.iter().all(|&times| times > 100), "{seen:?}");
    }
}

#[test]
fn over_random_runs() {
    let mut fills = 0;
    for seed in 0..300 {
        let kind = BOTH_KINDS[seed as usize % 2];
        let mut run = Run::of(kind);
        for event in event_list_of(kind, seed, 300) {
            run.step(event);
        }
        fills += run.seen.fills;
    }
    assert!(fills > 100, "{fills} fills");
}

/// A sender that sees bit 4 clear and later set, without a reset between: all that it had filled by
/// then is emptied.
#[test]
fn bit_4_set_since_it_was_clear_tells_of_every_word() {
    let mut learned = 0;
    for seed in 1000..1300 {
        let mut run = Run::of(BOTH_KINDS[seed as usize % 2]);
        // How many words had been filled when the sender last saw the bit clear.
        let mut by_then = [Some(0), Some(0)];
        for event in mail_events(&mut Rng::new(seed), 300) {
            let answer = run.step(event);
            if answer[0] == 0 && (event[0] == 8 || event[0] == 9) {
                by_then = [Some(0), Some(0)];
            }
            for m in [0, 1] {
                let words = &run.books[1 - m];
                match run.device.register(m, 4) & 0x10 {
                    0 => by_then[m] = Some(words.filled.len()),
                    _ => {
                        if let Some(count) = by_then[m].take() {
                            assert!(words.emptied.len() >= count);
                            learned += usize::from(count > 0);
                        }
                    }
                }
            }
        }
    }
    assert!(learned > 100, "{learned} times");
}

/// 6 and then 7 of a full box hands out the word that is emptied, whatever the partner writes
/// between; 7 and then 6 need not.
#[test]
fn six_before_seven() {
    for kind in BOTH_KINDS {
        for (m, p) in [(0, 1), (1, 0)] {
            let sent = [command(p, 0x86), write(p, 0x11), write(p, 0x22)];
            let mut device = Device::power_up_of(kind);
            run(&mut device, &sent);
            let low = run(&mut device, &[command(m, 0x86), read(m)])[1];
            run(&mut device, &[command(p, 0x86), write(p, 0x33), write(p, 0x44)]);
            let high = run(&mut device, &[read(m)])[1];
            assert_eq!((low, high), (0x11, 0x22));

            let mut device = Device::power_up_of(kind);
            run(&mut device, &sent);
            let high = run(&mut device, &[command(m, 7), read(m)])[1];
            run(&mut device, &[command(p, 6), write(p, 0x33)]);
            let low = run(&mut device, &[command(m, 6), read(m)])[1];
            assert_eq!((low, high), (0x33, 0x22));
        }
    }
}
