//! Seeded random pairs of start-up scripts, good and damaged (document 02, #109), and what is seen in
//! their orders. The random scripts say nothing about what is right.

use crate::device::*;
use crate::event::make::*;
use crate::orders::*;
use crate::part::Kind;
use crate::phrases::{Bytes, Phrase};
use crate::rng::Rng;
use crate::seen::Happenings;
use crate::trace::four;

/// A pair of scripts, script 0 first.
pub type Scripts = [Vec<u8>; 2];

/// A good pair, each script with up to six events.
pub fn good_scripts(rng: &mut Rng) -> Scripts {
    if rng.percent(10) {
        let script = good_script(rng, 0);
        return [script.clone(), script];
    }
    [good_script(rng, 0), good_script(rng, 1)]
}

fn good_script(rng: &mut Rng, m: u8) -> Vec<u8> {
    let mut script: Phrase = vec![];
    let most = rng.between(0, MOST_SCRIPT as u64) as usize;
    while script.len() < most {
        script.extend(phrase(rng, m));
    }
    // A script may end in the middle, and an event may be forgotten.
    script.truncate(most);
    if rng.percent(30) && !script.is_empty() {
        script.remove(rng.below(script.len() as u64) as usize);
    }
    script.concat()
}

/// What a script goes on with.
fn phrase(rng: &mut Rng, m: u8) -> Phrase {
    let any = [rng.byte() % 12, rng.byte() % 3, rng.byte(), 0];
    match rng.below(11) {
        0..=2 => start_up(rng, m),
        3 => vec![command(m, 1), write(m, contr(rng)), stop(m), tick()],
        // A PAIR counts where both ports are open for writing.
        4..=5 => vec![command(m, 1), pair(contr(rng), contr(rng)), stop(m)],
        6 => vec![command(m, 1), write(m, contr(rng) | BUS_INIT | BUS_CONNECT), stop(m), pulse(1)],
        7 => vec![command(m, 1), write(m, LOCK_REQ | SMBUS_SWRST), general_call(m, 6), tick()],
        // On a TPT29641, and on that alone, the third byte comes to CONTR.
        8 => vec![command(m, 0x87), write(m, 0), write(m, 0), write(m, contr(rng)), stop(m)],
        9 => vec![rng.pick(&[tick(), reset(), read(m), stop(m), lines(1, 0, 1), lines(1, 1, 1)])],
        _ => vec![rng.pick(&[any, command(m, 8), write(m, 1), pulse(0), general_call(m, 7)])],
    }
}

/// About what the order sheet's events are for one master (#106).
fn start_up(rng: &mut Rng, m: u8) -> Phrase {
    let reserve = rng.pick(&[0, 1, 1, 2, 50]);
    let mut script = vec![command(m, 3), write(m, reserve), stop(m), command(m, 1)];
    script.extend([write(m, contr(rng)), stop(m)]);
    if rng.percent(40) {
        script.retain(|event| *event != stop(m));
        script.extend([stop(m), tick()]);
    }
    script
}

/// A CONTR byte. Most of them ask.
fn contr(rng: &mut Rng) -> u8 {
    bit(rng.percent(85), LOCK_REQ)
        | bit(rng.percent(40), PRIORITY)
        | bit(rng.percent(30), IDLE_TIMER_DIS)
        | bit(rng.percent(30), BUS_CONNECT)
        | bit(rng.percent(15), BUS_INIT)
}

/// Damages one script or both: bytes that are no fours, a seventh event and more.
pub fn damage_scripts(rng: &mut Rng, scripts: &mut Scripts) {
    let which = rng.below(3) as usize;
    for script in scripts.iter_mut().skip(which % 2).take(1 + which / 2) {
        if rng.percent(50) {
            let more = MOST_SCRIPT + rng.between(1, 3) as usize;
            script.resize(4 * more, rng.byte() % 10);
        }
        if rng.percent(50) {
            let odd = rng.between(1, 3) as usize;
            script.extend((0..odd).map(|_| rng.byte()));
        }
    }
}

/// The names of all sights that random pairs of scripts have to reach.
pub const ORDER_SIGHTS: &[&str] = &[
    // Scripts and limits.
    "orders of two empty scripts",
    "orders of one script beside an empty one",
    "orders of six events and six",
    "orders of two equal scripts",
    "limit of no order",
    "limit under the orders",
    "limit at the orders",
    "limit above the orders",
    "room under the orders, and not under the limit",
    "room under both, refused",
    // What is refused.
    "script 0 not in fours",
    "script 1 not in fours",
    "script 0 above six events",
    "script 1 above six events",
    "script not in fours beside one above six",
    "script above six and room for nothing",
    // Ends.
    "order that ends with no owner",
    "order that ends with owner 0",
    "order that ends with owner 1",
    "order that ends connected",
    "order that ends initialising",
    "order that ends with ground 1",
    "order that ends with ground 2",
    "order that ends with ground 3",
    "order that ends with a request and no owner",
    "orders that end differently",
    "event refused in one order and not in another",
    "order that ends otherwise on a TPT29641",
];

impl Happenings {
    /// Looks at a call.
    pub fn see_orders(&mut self, scripts: &Scripts, limit: usize, room: usize) {
        let [script0, script1] = scripts;
        let odd = scripts.each_ref().map(|script| script.len() % 4 != 0);
        let long = scripts.each_ref().map(|script| script.len() / 4 > MOST_SCRIPT);
        self.note(odd[0], "script 0 not in fours");
        self.note(odd[1], "script 1 not in fours");
        self.note(long[0] && odd == [false; 2], "script 0 above six events");
        self.note(long[1] && odd == [false; 2], "script 1 above six events");
        let beside = odd[0] && long[1] && !odd[1] || odd[1] && long[0] && !odd[0];
        self.note(beside, "script not in fours beside one above six");
        let refused = bytes_of_orders(script0, script1);
        self.note(refused == Err(6) && room == 0, "script above six and room for nothing");
        let Ok(bytes) = refused else {
            return;
        };
        let number = bytes.len();
        self.note(limit == 0, "limit of no order");
        self.note(0 < limit && limit < number, "limit under the orders");
        self.note(limit == number, "limit at the orders");
        self.note(limit > number, "limit above the orders");
        let enough = limit <= room;
        self.note(room < number && enough, "room under the orders, and not under the limit");
        self.note(room < number && !enough, "room under both, refused");
        self.see_ends(scripts, &bytes);
    }

    fn see_ends(&mut self, scripts: &Scripts, bytes: &[u8]) {
        let lengths = scripts.each_ref().map(|script| script.len() / 4);
        self.note(lengths == [0; 2], "orders of two empty scripts");
        self.note(lengths[0].min(lengths[1]) == 0, "orders of one script beside an empty one");
        self.note(lengths == [MOST_SCRIPT; 2], "orders of six events and six");
        let equal = scripts[0] == scripts[1] && lengths[0] > 0;
        self.note(equal, "orders of two equal scripts");
        self.note(bytes.iter().any(|byte| *byte != bytes[0]), "orders that end differently");
        let mut seen = bytes.to_vec();
        seen.sort();
        seen.dedup();
        for byte in seen {
            let owner = ["no owner", "owner 0", "owner 1"][usize::from(byte & 3)];
            self.note(true, &format!("order that ends with {owner}"));
            self.note(byte & 0x0C != 0, "order that ends connected");
            self.note(byte & 0x10 != 0, "order that ends initialising");
            let ground = byte >> 5;
            self.note(ground != 0, &format!("order that ends with ground {ground}"));
            // There is a claimant exactly if somebody asks.
            let asks = ground != 0 && byte & 3 == 0;
            self.note(asks, "order that ends with a request and no owner");
        }
        let events = |script: &[u8]| -> Vec<Bytes> { script.chunks(4).map(four).collect() };
        let scripts = [events(&scripts[0]), events(&scripts[1])];
        let of_first = refused_in(&scripts, &[vec![0; lengths[0]], vec![1; lengths[1]]].concat());
        let of_last = refused_in(&scripts, &[vec![1; lengths[1]], vec![0; lengths[0]]].concat());
        self.note(of_first != of_last, "event refused in one order and not in another");
        let mut other = Device::power_up_of(Kind::Tpt29641);
        let first = scripts.concat().into_iter().map(|event| other.step(event)).last();
        let otherwise = first.is_some_and(|answer| answer[2] != bytes[0]);
        self.note(otherwise, "order that ends otherwise on a TPT29641");
    }
}

/// How many events of an order are refused.
fn refused_in(scripts: &[Vec<Bytes>; 2], pattern: &[usize]) -> usize {
    let mut device = Device::power_up();
    let answers = order_of(pattern, scripts).into_iter().map(|event| device.step(event));
    answers.filter(|answer| answer[0] > 1).count()
}
