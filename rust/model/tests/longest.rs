//! What is measured held against what is bounded: the longest wait of a trace, as the bus share report
//! counts it (document 02, #112), on random traces with reserves, resets and holds.

mod bench;
use bench::*;
use model::device::{Port, LOCK_REQ};
use model::nights::Night;
use model::part::BOTH_KINDS;
use model::rng::Rng;
use model::share::{waits, Totals};
use model::traces::trace_of_kind;

/// What a trace shows of the waits of one controller, m.
#[derive(Default, Debug)]
struct Shown {
    /// The largest reserve of the other whenever it owned, 0 if it never did.
    most: u64,
    /// The other owned without a reserve.
    unreserved: bool,
    /// The ticks beyond one that the other took for a STOP as claimant, at most.
    more: u64,
    /// The ticks that it has taken for the STOP that is due.
    due: u64,
    /// The longest run of TICKs after which m waited while the bus was not idle or its own port not at
    /// rest, and the present run.
    busy: u64,
    busy_now: u64,
    /// m waited in a hold.
    held: bool,
    /// m waited after the last TICK, and its request has stood since.
    waited: bool,
    stood: bool,
    /// From one TICK after which m waited to the next its request did not stand throughout.
    broken: bool,
}

impl Shown {
    fn see(&mut self, m: usize, event: [u8; 4], device: &Device) {
        let other = 1 - m;
        if let Some(grant) = device.grant.as_ref().filter(|grant| grant.owner == other) {
            self.most = self.most.max(grant.reserve as u64);
            self.unreserved |= grant.reserve == 0;
        }
        let claims = device.claimant() == Some(other) && device.owner() != Some(other);
        let owes_a_stop = claims && device.masters[other].port != Port::AtRest;
        if !owes_a_stop {
            self.due = 0;
        }
        self.stood &= device.masters[m].has(LOCK_REQ);
        if event == tick() {
            self.see_tick(m, owes_a_stop, device);
        }
    }

    fn see_tick(&mut self, m: usize, owes_a_stop: bool, device: &Device) {
        let waited = waits(device, m);
        if waited && owes_a_stop {
            self.due += 1;
            self.more = self.more.max(self.due - 1);
        }
        let in_the_way = !device.is_idle() || device.masters[m].port != Port::AtRest;
        self.busy_now = if waited && in_the_way { self.busy_now + 1 } else { 0 };
        self.busy = self.busy.max(self.busy_now);
        self.held |= waited && device.hold > 0;
        self.broken |= self.waited && waited && !self.stood;
        self.waited = waited;
        self.stood = waited;
    }

    /// The claim: a longest wait is at most this.
    fn bound(&self) -> u64 {
        35 + self.most + self.more + self.busy
    }

    /// What the runs come to. A wait is counted by the TICKs after which it goes on, so the tick that ends
    /// it is not counted; and 35 is for a hold alone.
    fn sharp(&self) -> u64 {
        let hold = if self.held { 34 } else { 0 };
        hold + self.most.max(1) + self.more + self.busy
    }
}

/// The longest wait of each controller, and what the trace shows of its waits.
fn measure(kind: Kind, events: &[[u8; 4]]) -> [(u64, Shown); 2] {
    let mut totals = Totals::default();
    assert_eq!(totals.add(&trace_of_kind(kind, [0; 4], events)), 0);
    let mut device = Device::power_up_of(kind);
    let mut shown = [Shown::default(), Shown::default()];
    for &event in events {
        device.step(event);
        [0, 1].into_iter().for_each(|m| shown[m].see(m, event, &device));
    }
    let [shown0, shown1] = shown;
    [(totals.longest[0], shown0), (totals.longest[1], shown1)]
}

/// A random trace of two controllers that ask with reserves of 1 to some most. In many of them resets
/// come, most of which hold SCL.
fn random_trace(seed: u64) -> (Kind, Vec<[u8; 4]>) {
    let mut rng = Rng::new(seed);
    let kind = rng.pick(&BOTH_KINDS);
    let most = rng.pick(&[1, 2, 5, 20, 60, 255]);
    let length = rng.between(20, 600);
    let mut night = Night::new(seed, rng.percent(50), Some(1..=most));
    let mut device = Device::power_up_of(kind);
    let mut events = vec![];
    for _ in 0..length {
        let event = night.next_event(&device);
        device.step(event);
        events.push(event);
    }
    (kind, events)
}

/// "A trace that meets the premises [...] has a longest wait within that bound in the totals."
#[test]
fn longest_wait_bounded() {
    let (mut held_to, mut left_out, mut met, mut with_a_hold) = (0, 0, [0, 0], 0);
    for seed in 0..20_000 {
        let (kind, events) = random_trace(seed);
        for (m, (longest, shown)) in measure(kind, &events).into_iter().enumerate() {
            if shown.unreserved || shown.broken {
                left_out += 1;
                continue;
            }
            assert!(longest <= shown.bound(), "seed {seed}, {m}: {longest}, {shown:?}");
            assert!(longest <= shown.sharp(), "seed {seed}, {m}: {longest}, {shown:?}");
            held_to += u64::from(longest > 0);
            met[m] += u64::from(longest > 0 && longest == shown.sharp());
            with_a_hold += u64::from(shown.held);
        }
    }
    println!("held to {held_to}, left out {left_out}, met {met:?}, with a hold {with_a_hold}");
    assert!(held_to > 5000 && with_a_hold > 300 && met.iter().all(|&count| count > 30));
}

/// A soft reset that holds SCL, after which the other asks with this reserve and then m. For 34 ticks of
/// the hold the other's port is at rest; then it is open over `late` ticks.
fn through_a_hold(m: u8, reserve: u8, late: usize) -> Vec<[u8; 4]> {
    let other = 1 - m;
    let ask = |by: u8| vec![command(by, 1), write(by, 0x01), stop(by)];
    [
        vec![command(m, 1), write(m, 0x10), general_call(m, 6)],
        vec![command(other, 3), write(other, reserve), stop(other)],
        ask(other),
        ask(m),
        vec![tick(); 34],
        vec![command(other, 1)],
        vec![tick(); late],
    ]
    .concat()
}

/// The longest wait of m, which has to be this sum of hold, reserve, ticks for the STOP and busy ticks.
fn assert_longest(kind: Kind, m: u8, events: &[[u8; 4]], sum: [u64; 4]) {
    let [of_0, of_1] = measure(kind, events);
    let (longest, shown) = if m == 0 { of_0 } else { of_1 };
    let [hold, most, more, busy] = sum;
    assert!(!shown.broken && !shown.unreserved && shown.held);
    assert_eq!((shown.most, shown.more, shown.busy), (most, more, busy));
    assert_eq!(longest, hold + most + more + busy);
    assert!(longest <= shown.bound() && longest == shown.sharp());
}

/// The longest wait that there is: through a hold, for a late STOP, the whole reserve, and as long as the
/// bus is busy at its end.
#[test]
fn longest_wait_through_a_hold() {
    for kind in BOTH_KINDS {
        for (m, reserve) in [0, 1].into_iter().flat_map(|m| [1, 2, 50, 255].map(|r| (m, r))) {
            for (late, busy) in [(1, 34), (1, 60), (2, 34), (9, 200)] {
                let mut events = through_a_hold(m, reserve, late);
                events.push(stop(1 - m));
                events.extend(vec![tick(); usize::from(reserve) - 1]);
                events.push(lines(1, 0, 1));
                events.extend(vec![tick(); busy]);
                events.extend([lines(1, 1, 1), tick()]);
                let sum = [34, u64::from(reserve), late as u64 - 1, busy as u64];
                assert_longest(kind, m, &events, sum);
            }
        }
    }
}

/// Where the other never owns the claim is met to the tick: it drops out instead of sending its STOP, and
/// then m's own port is open.
#[test]
fn longest_wait_behind_one_that_never_owns() {
    for kind in BOTH_KINDS {
        for m in [0, 1] {
            for (late, busy) in [(1, 34), (4, 70)] {
                let mut events = through_a_hold(m, 5, late);
                events.extend([command(m, 1), write(1 - m, 0x00)]);
                events.extend(vec![tick(); busy]);
                events.extend([stop(m), tick()]);
                assert_longest(kind, m, &events, [35, 0, late as u64 - 1, busy as u64]);
            }
        }
    }
}
