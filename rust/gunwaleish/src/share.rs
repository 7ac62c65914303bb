//! The bus share over many traces. Document 02, #112.

use crate::{boundary, Master, Refusal};

/// Totals are over so many traces at most, refused ones included.
pub const MOST_TRACES: u64 = 65_535;

/// How many numbers the totals are.
pub const TOTAL_COUNT: usize = 17;

/// For how many ticks each controller owned the bus, was connected, and waited, over many traces.
/// Each trace runs from power-up, and the state after each accepted TICK counts.
///
/// The totals are 17 numbers and nothing else, so they can be kept and taken up again. Traces may be
/// counted in several threads and the totals joined: they are those of all traces counted in one.
///
/// ```
/// # #[cfg(feature = "alloc")] {
/// use gunwaleish::{write_trace, Event, Master, Part, Pins, Refusal, Totals};
///
/// // Master 0 asks for the bus; of the two ticks after the grant it owns both.
/// let master = Master::Zero;
/// let events = [
///     Event::Command { master, code: 1 },
///     Event::Write { master, value: 0x05 },
///     Event::Stop { master },
///     Event::Tick,
///     Event::Tick,
/// ];
/// let trace = write_trace(Pins::of_address(0x70)?, Part::Pca9641, &events)?;
/// let mut totals = Totals::new();
/// totals.add(&trace)?;
/// assert_eq!((totals.ticks(), totals.owned(Master::Zero), totals.unowned()), (2, 2, 0));
///
/// // A trace that is refused is counted under its number, and adds nothing else.
/// assert_eq!(totals.add(&trace[1..]), Err(Refusal::WrongCount));
/// assert_eq!((totals.traces(), totals.refused(10), totals.ticks()), (2, 1, 2));
///
/// // Counted elsewhere and joined.
/// let mut other = Totals::new();
/// other.add(&trace)?;
/// totals.join(&other)?;
/// assert_eq!((totals.traces(), totals.owned(Master::Zero)), (3, 4));
/// # }
/// # Ok::<(), gunwaleish::Refusal>(())
/// ```
#[derive(Clone, Copy, Debug, Default, PartialEq, Eq, Hash)]
pub struct Totals {
    numbers: [u64; TOTAL_COUNT],
}

impl Totals {
    /// The totals before the first trace.
    pub fn new() -> Totals {
        Totals::default()
    }

    /// Totals that were kept. Any numbers are taken; a sum of made-up ones stops at the top.
    pub fn from_numbers(numbers: [u64; TOTAL_COUNT]) -> Totals {
        Totals { numbers }
    }

    /// Adds a trace. A refused one is counted, under its number, and adds nothing else. If there are
    /// 65,535 traces already, it is `TooManyTraces` whatever the trace, and the totals are kept.
    pub fn add(&mut self, trace: &[u8]) -> Result<(), Refusal> {
        // Of a trace that is counted, 6 says that it has too many events.
        let full = self.traces() >= MOST_TRACES;
        let number = boundary::share_add(trace, &mut self.numbers) as u8;
        match number {
            6 if full => Err(Refusal::TooManyTraces),
            _ => Refusal::of(number).map_or(Ok(()), Err),
        }
    }

    /// Joins the totals of other traces to these. Refused with 6, `TooManyTraces`, if there are more
    /// than 65,535 together, and the totals are kept.
    pub fn join(&mut self, other: &Totals) -> Result<(), Refusal> {
        match boundary::share_join(&other.numbers, &mut self.numbers) as u8 {
            6 => Err(Refusal::TooManyTraces),
            number => Refusal::of(number).map_or(Ok(()), Err),
        }
    }

    /// All traces, refused ones included.
    pub fn traces(&self) -> u64 {
        self.numbers[0]
    }

    /// The accepted TICKs of all traces. Owned by 0, owned by 1 and owned by nobody add up to them.
    pub fn ticks(&self) -> u64 {
        self.numbers[1]
    }

    /// The ticks after which this controller owned the bus.
    pub fn owned(&self, master: Master) -> u64 {
        self.of(2, master)
    }

    /// The ticks after which nobody owned the bus.
    pub fn unowned(&self) -> u64 {
        self.numbers[4]
    }

    /// The ticks after which the switch was closed for this controller.
    pub fn connected(&self, master: Master) -> u64 {
        self.of(5, master)
    }

    /// The ticks after which this controller's request stood and it was not granted.
    pub fn waited(&self, master: Master) -> u64 {
        self.of(7, master)
    }

    /// The longest wait of this controller, in ticks one after the other in one trace.
    pub fn longest(&self, master: Master) -> u64 {
        self.of(9, master)
    }

    /// The traces that were refused with this number: 3, 5, 6, 7, 8 or 10. There are none with another.
    pub fn refused(&self, number: u8) -> u64 {
        let place = [3, 5, 6, 7, 8, 10].into_iter().position(|refusal| refusal == number);
        place.map_or(0, |place| self.numbers[11 + place])
    }

    /// The 17 numbers, as the C header's `gunwaleish_totals` has their places.
    pub fn numbers(&self) -> &[u64; TOTAL_COUNT] {
        &self.numbers
    }

    /// Of two neighbours, from this place on, the one of a controller.
    fn of(&self, first: usize, master: Master) -> u64 {
        self.numbers[first + usize::from(master.number())]
    }
}
