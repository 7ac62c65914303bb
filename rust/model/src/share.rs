//! The bus share report. Document 02, #112: "over many traces, the ticks each controller owned the
//! bus, was connected, and waited (request standing, no grant)".

use crate::device::{Device, LOCK_REQ};
use crate::event::{read_event, Event};
use crate::trace::{read_trace, Trace};

/// "Totals are 64-bit over up to 65,535 traces", "refused ones included".
pub const MOST_TRACES: u64 = 65_535;
/// "Refusal: 6 past 65,535 traces."
pub const TOO_MANY_TRACES: u8 = 6;

/// The numbers with which a trace is refused where there is no answer buffer.
pub const REFUSALS: [u8; 6] = [3, 5, 6, 7, 8, 10];

/// The totals. An array has master 0's first.
#[derive(Clone, Debug, Default, PartialEq, Eq)]
pub struct Totals {
    /// All traces, refused ones included.
    pub traces: u64,
    pub ticks: u64,
    pub owned: [u64; 2],
    pub unowned: u64,
    pub connected: [u64; 2],
    pub waited: [u64; 2],
    /// The most ticks after each of which the controller waited, one after the other in one trace.
    pub longest: [u64; 2],
    /// Refused traces, by the places of `REFUSALS`.
    pub refused: [u64; 6],
}

/// "The list of states after each TICK": accepted ones only, "each trace from power-up".
pub fn states_after_ticks(trace: &Trace) -> Vec<Device> {
    let mut device = Device::power_up_of(trace.kind);
    let mut states = vec![];
    for &event in &trace.events {
        let answer = device.step(event);
        if answer[0] == 0 && read_event(event) == Ok(Event::Tick) {
            states.push(device.clone());
        }
    }
    states
}

/// "Its own LOCK_REQ stands and it is not granted."
pub fn waits(device: &Device, m: usize) -> bool {
    device.masters[m].has(LOCK_REQ) && device.owner() != Some(m)
}

/// "Connected: the closed switch."
pub fn is_connected(device: &Device, m: usize) -> bool {
    device.closed_for() == Some(m)
}

/// What one list of states adds, and its longest waits.
pub fn totals_of(states: &[Device]) -> Totals {
    let count = |holds: &dyn Fn(&Device) -> bool| {
        states.iter().filter(|device| holds(device)).count() as u64
    };
    let each = |holds: &dyn Fn(&Device, usize) -> bool| {
        [0, 1].map(|m| count(&|device: &Device| holds(device, m)))
    };
    Totals {
        traces: 1,
        ticks: states.len() as u64,
        owned: each(&|device, m| device.owner() == Some(m)),
        unowned: count(&|device| device.owner().is_none()),
        connected: each(&is_connected),
        waited: each(&waits),
        longest: [0, 1].map(|m| longest_wait(states, m)),
        refused: [0; 6],
    }
}

/// The most neighbours in the list that all wait.
fn longest_wait(states: &[Device], m: usize) -> u64 {
    let waiting = states.split(|device| !waits(device, m));
    waiting.map(|neighbours| neighbours.len() as u64).max().unwrap_or(0)
}

impl Totals {
    /// Adds a trace. Gives 0, or the number of the refusal.
    pub fn add(&mut self, trace: &[u8]) -> u8 {
        self.take(read_trace(trace))
    }

    /// Adds a trace of which the input's end has cut bytes off: "one trace refused with 5".
    pub fn add_cut(&mut self) -> u8 {
        self.take(Err(5))
    }

    /// "A refused trace adds nothing except one to a count of refused traces for its number." Past
    /// the most traces: "6, nothing counted, whatever the trace".
    fn take(&mut self, read: Result<Trace, u8>) -> u8 {
        if self.traces >= MOST_TRACES {
            return TOO_MANY_TRACES;
        }
        match read {
            Ok(trace) => {
                self.sum(&totals_of(&states_after_ticks(&trace)));
                0
            }
            Err(number) => {
                let refused = REFUSALS.map(|refusal| u64::from(refusal == number));
                self.sum(&Totals { traces: 1, refused, ..Totals::default() });
                number
            }
        }
    }

    /// Joins the totals of other traces. Gives 0, or 6 past the most traces, and nothing is counted.
    pub fn join(&mut self, other: &Totals) -> u8 {
        if u128::from(self.traces) + u128::from(other.traces) > u128::from(MOST_TRACES) {
            return TOO_MANY_TRACES;
        }
        self.sum(other);
        0
    }

    /// Sums, each of which stops at the top of 64 bits; of the longest waits the longer one.
    fn sum(&mut self, other: &Totals) {
        let mut numbers = self.numbers();
        for (place, more) in other.numbers().into_iter().enumerate() {
            let here = &mut numbers[place];
            *here =
                if LONGEST.contains(&place) { more.max(*here) } else { here.saturating_add(more) };
        }
        *self = Totals::of(numbers);
    }
}

/// The totals in a row: traces, ticks, owned by 0, by 1 and by none, connected 0 and 1, waited 0 and
/// 1, longest wait of 0 and of 1, then refused traces with 3, 5, 6, 7, 8 and 10.
pub const NUMBERS: usize = 17;
const LONGEST: std::ops::Range<usize> = 9..11;

impl Totals {
    pub fn numbers(&self) -> [u64; NUMBERS] {
        let [owned0, owned1] = self.owned;
        let mut numbers = vec![self.traces, self.ticks, owned0, owned1, self.unowned];
        numbers.extend([self.connected, self.waited, self.longest].concat());
        numbers.extend(self.refused);
        numbers.try_into().expect("there are as many totals")
    }

    pub fn of(numbers: [u64; NUMBERS]) -> Totals {
        let two = |at: usize| [numbers[at], numbers[at + 1]];
        Totals {
            traces: numbers[0],
            ticks: numbers[1],
            owned: two(2),
            unowned: numbers[4],
            connected: two(5),
            waited: two(7),
            longest: two(9),
            refused: [11, 12, 13, 14, 15, 16].map(|at| numbers[at]),
        }
    }
}

/// Adds a trace to totals in a lent row of numbers. Gives 9 for a row of another length, which stays
/// as it is; else what the trace gives.
pub fn share_add(trace: &[u8], totals: &mut [u64]) -> u8 {
    let Ok(numbers) = <[u64; NUMBERS]>::try_from(&*totals) else {
        return 9;
    };
    let mut sums = Totals::of(numbers);
    let number = sums.add(trace);
    totals.copy_from_slice(&sums.numbers());
    number
}

/// Joins the totals of other traces to totals in a lent row of numbers. Gives 9 if either row has
/// another length, and the totals stay as they are.
pub fn share_join(other: &[u64], totals: &mut [u64]) -> u8 {
    let rows = (<[u64; NUMBERS]>::try_from(other), <[u64; NUMBERS]>::try_from(&*totals));
    let (Ok(other), Ok(numbers)) = rows else {
        return 9;
    };
    let mut sums = Totals::of(numbers);
    let number = sums.join(&Totals::of(other));
    totals.copy_from_slice(&sums.numbers());
    number
}
