//! Captures by hand: what the controllers of a shelf do, each in short.

use super::bus::{Setting, DOWN_SCL, DOWN_SDA, INT_IN, LINES};
use super::chip::Flaw;
use super::moves::{Manner, PLAIN};
use super::play::Scene;
use super::script::{get, look, low, set, Item, Script, World};
use crate::part::Kind;

/// A story's name, both scripts and what goes on downstream, by ticks.
pub struct Story {
    pub name: &'static str,
    pub scripts: [Script; 2],
    pub world: World,
}

const SAMPLES_PER_TICK: u64 = 400;

impl Story {
    /// The story with a chip of this flaw, said to be of this kind.
    pub fn scene(&self, kind: Kind, flaw: Flaw, seed: u64) -> Scene {
        let in_samples = |&(tick, lines): &(u64, u8)| (tick * SAMPLES_PER_TICK + 37, lines);
        Scene {
            setting: Setting { address: 0x71, kind, samples_per_tick: SAMPLES_PER_TICK },
            flaw,
            scripts: self.scripts.clone(),
            world: self.world.iter().map(in_samples).collect(),
            first: [3, 3],
            manner: Manner { slowest: 3, ..PLAIN },
            seed,
            tail: 10,
            phase: 0,
        }
    }
}

/// All stories.
pub fn stories() -> Vec<Story> {
    vec![
        box_14(0, "box14"),
        box_14(50, "box14-filled-in"),
        take_over(),
        mail(),
        interrupts(),
        pairs(),
        idle(),
        registers(),
        bursts(),
        hung(),
    ]
}

fn story(name: &'static str, scripts: [Vec<Script>; 2], world: &[(u64, u8)]) -> Story {
    Story { name, scripts: scripts.map(|script| script.concat()), world: world.to_vec() }
}

/// Controller 0 takes the bus, ends a transfer and stalls; its partner asks, waits and looks.
fn box_14(reserve: u8, name: &'static str) -> Story {
    let stalled = vec![set(3, reserve), set(1, 0x05)];
    let asks = vec![vec![Item::Until(2)], set(3, 50), set(1, 0x05)];
    let looks = [4, 20, 49, 50, 51, 99, 100, 101, 120].map(look);
    story(name, [stalled, [asks, looks.to_vec()].concat()], &[(1, low(DOWN_SDA)), (2, LINES)])
}

/// A reserve of three ticks runs out, one of five after it; then one that ends on a busy bus.
fn take_over() -> Story {
    let first = vec![set(3, 3), set(1, 0x05), look(1), look(2), look(3), look(4)];
    let again = vec![vec![Item::Until(12)], set(1, 0x01), look(14), look(15), look(16), look(22)];
    let partner = vec![set(3, 5), vec![Item::Until(1)], set(1, 0x05), look(2), look(3), look(7)];
    let later = vec![look(8), look(9), look(13), set(1, 0x01), look(21), look(23)];
    let world = [(14, low(DOWN_SDA)), (20, LINES)];
    story("take-over", [[first, again].concat(), [partner, later].concat()], &world)
}

/// A word each way, one that a full box drops, and who sees what of it.
fn mail() -> Story {
    let word = |low: u8, high: u8| vec![Item::Write(vec![0x86, low, high]), Item::Stop];
    let sender = vec![
        word(0x12, 0x34),
        look(1),
        word(0x56, 0x78),
        look(3),
        vec![Item::Until(4)],
        get(0x86, 2),
        look(5),
        word(0x9A, 0xBC),
        look(8),
    ];
    let reader = vec![
        look(1),
        vec![Item::Until(2)],
        get(0x06, 1),
        look(3),
        get(0x07, 1),
        word(0x55, 0xAA),
        look(5),
        set(4, 0x3F),
        look(6),
        get(0x86, 2),
        look(7),
        get(0x86, 2),
    ];
    story("mail", [sender, reader], &[])
}

/// INT_IN, test, granted and lost: read, masked and cleared.
fn interrupts() -> Story {
    let first = vec![
        set(5, 0x00),
        set(2, 0x20),
        look(1),
        set(4, 0x08),
        look(2),
        set(3, 2),
        set(1, 0x01),
        look(3),
        look(6),
        set(4, 0x06),
        look(7),
        vec![Item::Until(9)],
        get(0x84, 2),
        set(4, 0x01),
        get(0x84, 2),
    ];
    let second = vec![look(1), set(5, 0x7E), look(5), set(4, 0x01), look(8), look(9)];
    let world = [(4, low(INT_IN)), (5, LINES), (6, low(INT_IN)), (8, LINES)];
    story("interrupts", [first, second], &world)
}

/// Both write at one sample: requests with and without priority, mail both ways, a clearing beside
/// a fill.
fn pairs() -> Story {
    let both = |tick: u64, bytes: &[u8]| {
        vec![Item::Until(tick), Item::Pair(bytes.to_vec()), Item::Stop, Item::Rest(40)]
    };
    let one = |first: &[u8], last: u8| {
        let claims = vec![both(1, &[1, 0x01]), look(2), set(1, 0x00), set(1, 0x00)];
        let again = vec![both(4, &[1, 0x81]), look(5), set(1, 0x00), set(1, 0x00), look(7)];
        let mail = vec![both(8, &[0x86, first[0], first[1]]), look(9), get(0x86, 2), look(11)];
        let clash = vec![both(12, &[last, 0x3F]), look(13)];
        [claims, again, mail, clash].concat()
    };
    story("pair", [one(&[0x11, 0x22], 4), one(&[0x33, 0x44], 7)], &[])
}

/// RT 00h with the idle timer on: looked at about the 100th, 101st, 150th and 151st idle tick.
fn idle() -> Story {
    let owner = vec![set(3, 0), set(1, 0x25)];
    let owner = [owner, [98, 100, 101, 102, 149, 150, 151, 152].map(look).to_vec()].concat();
    let partner = vec![vec![Item::Until(5)], set(3, 20), look(99), look(101), look(150), look(151)];
    story("idle", [owner, partner], &[])
}

/// Every bit of CONTR that a script may set, read before the STOP and after it; levels downstream,
/// from outside and by the owner's drives.
fn registers() -> Story {
    let read_on = |value: u8| vec![Item::Write(vec![1, value]), Item::Read(1), Item::Stop];
    let first = vec![
        get(0x80, 8),
        read_on(0xF7),
        look(1),
        set(1, 0x00),
        look(2),
        read_on(0x01),
        set(2, 0x40),
        look(4),
        set(2, 0x00),
        look(5),
        set(2, 0xC0),
        look(6),
        set(1, 0x05),
        look(9),
        vec![Item::Write(vec![0x08]), Item::Read(2), Item::Stop],
        set(0, 0x55),
    ];
    let second = vec![look(1), look(4), look(5), look(7), look(9), vec![Item::Read(1), Item::Stop]];
    let world = [(8, low(DOWN_SCL)), (10, low(DOWN_SCL | DOWN_SDA)), (12, LINES)];
    story("registers", [first, second], &world)
}

/// Bursts that go past register 7, where the two kinds of part differ.
fn bursts() -> Story {
    let burst = vec![Item::Write(vec![0x86, 0x01, 0x02, 0x03, 0x04, 0x05]), Item::Stop];
    let first = vec![burst.clone(), look(1), get(0x86, 4)];
    let second = vec![vec![Item::Until(2)], get(0x86, 2), look(3), burst, look(5)];
    story("bursts", [first, second], &[])
}

/// SDA is low from tick 5 on while the clock still moves at tick 300; then SCL is low as well.
fn hung() -> Story {
    let first = [4, 250, 504, 506, 520, 801, 802, 803, 804, 806].map(look).to_vec();
    let second = [5, 505, 507, 802, 803, 808, 812].map(look).to_vec();
    let sda = low(DOWN_SDA);
    let world = [(5, sda), (300, low(DOWN_SDA | DOWN_SCL)), (301, sda), (810, LINES)];
    story("hung", [first, second], &world)
}
