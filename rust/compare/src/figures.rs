//! How many cases there were, what happened in them, and what never did. Each comparison adds to it the call that makes and
//! counts it; here is only the counting.

use std::collections::BTreeMap;
use std::error::Error;
use std::fmt;

use model::happenings::{kinds_of, Happenings};
use model::part::BOTH_KINDS;
use model::trace::hex;
use model::{read_trace, TraceResult};

use crate::wanted::{sights, CALLS};

/// What differs between the two sides, in words. The caller knows the trace.
#[derive(Clone, Debug, PartialEq, Eq)]
pub struct Difference(String);

impl From<String> for Difference {
    fn from(words: String) -> Difference {
        Difference(words)
    }
}

impl fmt::Display for Difference {
    fn fmt(&self, f: &mut fmt::Formatter) -> fmt::Result {
        f.write_str(&self.0)
    }
}

impl Error for Difference {}

/// The two sides differ, in these words.
pub fn differ<T>(words: impl Into<String>) -> Result<T, Difference> {
    Err(Difference(words.into()))
}

/// So many mismatches are told in full. The rest are only counted.
const TOLD: usize = 3;
/// An input up to this length is told in hex. A longer one is kept as a file.
const SHORT: usize = 300;

#[derive(Default)]
pub struct Figures {
    seed: u64,
    /// How often each call answered each number.
    numbers: BTreeMap<(&'static str, u8), u64>,
    events: u64,
    listings: u64,
    orders: u64,
    /// How many inputs of each kind were damaged before they were compared.
    damaged: BTreeMap<&'static str, u64>,
    /// The most ticks of an advance that changed something, from an image that a run has reached.
    pub(crate) most_changing: u32,
    /// What happened in runs, one for each kind of part.
    happenings: [Happenings; 2],
    /// What was seen in all other calls.
    pub(crate) sights: Happenings,
    mismatches: u64,
    told: Vec<String>,
}

impl Figures {
    pub fn new(seed: u64) -> Figures {
        Figures { seed, ..Figures::default() }
    }

    /// Counts a comparison that has no trace.
    pub fn note(&mut self, result: Result<(), Difference>) {
        if let Err(difference) = result {
            self.tell_only(difference);
        }
    }

    pub(crate) fn answered(&mut self, call: &'static str, number: u8) {
        *self.numbers.entry((call, number)).or_insert(0) += 1;
    }

    /// Counts an input of this kind that was made out of a good one, if the damage left it another.
    pub(crate) fn damage<Input: PartialEq + ?Sized>(
        &mut self,
        kind: &'static str,
        good: &Input,
        damaged: &Input,
    ) {
        if good != damaged {
            *self.damaged.entry(kind).or_insert(0) += 1;
        }
    }

    /// Counts one listing.
    pub(crate) fn listed(&mut self) {
        self.listings += 1;
    }

    /// Counts so many orders that were listed.
    pub(crate) fn listed_orders(&mut self, count: usize) {
        self.orders += count as u64;
    }

    /// Counts a run, and what happened in it.
    pub(crate) fn count(&mut self, trace: &[u8], result: &TraceResult) {
        self.answered("run", result.number);
        if let (0, Ok(read)) = (result.number, read_trace(trace)) {
            self.events += read.events.len() as u64;
            self.happenings[usize::from(read.kind.number())].run(read.kind, &read.events);
        }
    }

    /// Tells what differs, and the input by its name.
    pub(crate) fn tell(&mut self, name: &str, input: &[u8], difference: impl fmt::Display) {
        // Once enough is told, no more files are kept.
        if self.told.len() < TOLD {
            let bytes =
                if input.len() <= SHORT { hex(input) } else { kept(name, input, self.seed) };
            return self.tell_only(format!("{difference}\n  {name}: {bytes}"));
        }
        self.tell_only(difference);
    }

    fn tell_only(&mut self, difference: impl fmt::Display) {
        self.mismatches += 1;
        if self.told.len() < TOLD {
            self.told.push(format!("seed {}: {difference}", self.seed));
        }
    }

    /// Adds what another thread counted.
    pub fn add(&mut self, other: Figures) {
        for (answer, count) in other.numbers {
            *self.numbers.entry(answer).or_insert(0) += count;
        }
        for (kind, count) in other.damaged {
            *self.damaged.entry(kind).or_insert(0) += count;
        }
        self.events += other.events;
        self.listings += other.listings;
        self.orders += other.orders;
        self.most_changing = self.most_changing.max(other.most_changing);
        for (mine, others) in self.happenings.iter_mut().zip(&other.happenings) {
            mine.add(others);
        }
        self.sights.add(&other.sights);
        self.mismatches += other.mismatches;
        self.told.extend(other.told);
    }

    /// Kinds of happening and numbers of a call that never occurred.
    pub fn never(&self) -> Vec<String> {
        let occurred = self.occurred().into_iter();
        let mut never: Vec<String> =
            occurred.filter(|(_, count)| *count == 0).map(|(name, _)| name).collect();
        for (call, numbers) in CALLS {
            let missing = numbers.iter().filter(|n| !self.numbers.contains_key(&(*call, **n)));
            never.extend(missing.map(|number| format!("{call} with number {number}")));
        }
        never
    }

    /// How often a call was made, and how often it answered each number.
    fn calls(&self, call: &str) -> String {
        let of_call = || self.numbers.iter().filter(|((name, _), _)| *name == call);
        let total: u64 = of_call().map(|(_, count)| count).sum();
        let by_number: Vec<String> =
            of_call().map(|((_, number), count)| format!("{number}: {count}")).collect();
        format!("{call} {total} times ({})", by_number.join(", "))
    }

    /// How many inputs were damaged, and how many of each kind.
    fn damages(&self) -> String {
        let total: u64 = self.damaged.values().sum();
        let by_kind: Vec<String> =
            self.damaged.iter().map(|(kind, count)| format!("{kind}: {count}")).collect();
        format!("{total} inputs damaged ({})", by_kind.join(", "))
    }

    /// No mismatch.
    pub fn agree(&self) -> bool {
        self.mismatches == 0
    }

    /// Every kind of happening in runs, for each kind of part, and every sight in all other calls, each
    /// with its count.
    fn occurred(&self) -> Vec<(String, u64)> {
        let mut all = vec![];
        for (part, happenings) in BOTH_KINDS.into_iter().zip(&self.happenings) {
            all.extend(
                kinds_of(part).map(|name| (format!("{part:?}: {name}"), happenings.count(name))),
            );
        }
        all.extend(sights().into_iter().map(|name| (name.clone(), self.sights.count(&name))));
        all
    }

    /// The same as lines.
    pub fn happenings(&self) -> String {
        self.occurred().iter().map(|(name, count)| format!("{count:>12}  {name}\n")).collect()
    }
}

impl fmt::Display for Figures {
    fn fmt(&self, f: &mut fmt::Formatter) -> fmt::Result {
        let occurred = self.occurred();
        let kinds = occurred.iter().filter(|(_, count)| *count > 0).count();
        let calls: Vec<String> = CALLS.iter().map(|(call, _)| self.calls(call)).collect();
        writeln!(
            f,
            "seed {}, by number: {}; {} events run, {} listings, {} orders listed, {}, at most {} \
             changing ticks in an advance, {kinds} of {} kinds of happening, {} mismatches",
            self.seed,
            calls.join(", "),
            self.events,
            self.listings,
            self.orders,
            self.damages(),
            self.most_changing,
            occurred.len(),
            self.mismatches
        )?;
        self.told.iter().take(TOLD).try_for_each(|told| writeln!(f, "MISMATCH {told}"))
    }
}

/// Keeps a long input as a file among the temporary ones, and says its name.
fn kept(name: &str, input: &[u8], seed: u64) -> String {
    let file = format!("mismatch-{seed}-{}.{name}", input.len());
    let path = std::env::temp_dir().join(file);
    match std::fs::write(&path, input) {
        Ok(()) => format!("{} bytes, kept as {}", input.len(), path.display()),
        Err(_) => hex(input),
    }
}
