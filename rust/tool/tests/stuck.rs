//! Why a controller waits and what would help, held to the independent model: what is said to come is
//! what the model does from there on.

use gunwaleish::{Device, Event, Master, Part};
use gunwaleish_tool::commands::{compose, explain};
use gunwaleish_tool::files::Input;
use gunwaleish_tool::stuck::{said, Case, End};
use model::device::{Port, LOCK_REQ, SMBUS_SWRST};
use model::part::Kind;
use model::traces::{seed_of, trace};

/// Longer than any reserve, limit or hold.
const LONG: usize = 700;

/// The model's device of a moment at which one waits, and what is said of it.
struct Moment {
    model: model::Device,
    waiting: Master,
    case: Case,
}

impl Moment {
    fn after(&self, events: &[Event]) -> model::Device {
        let mut model = self.model.clone();
        events.iter().for_each(|event| {
            model.step(event.bytes());
        });
        model
    }

    /// True if the waiting one owns after its own STOP and so many ticks.
    fn is_in(&self, ticks: usize) -> bool {
        let mut events = vec![Event::Stop { master: self.waiting }];
        events.resize(1 + ticks, Event::Tick);
        self.after(&events).owner() == Some(self.waiting as usize)
    }

    /// True if the waiting one owns at none of many ticks, whatever STOPs of its own it sends.
    fn is_never_in(&self) -> bool {
        let mut model = self.after(&[Event::Stop { master: self.waiting }]);
        (0..LONG).all(|_| {
            model.step(Event::Tick.bytes());
            model.owner() != Some(self.waiting as usize)
        })
    }

    /// The way back: seven events of the waiting one, and 35 ticks if it had set SMBUS_SWRST.
    fn has_a_way_back(&self) -> bool {
        let master = self.waiting;
        let mut events = vec![
            Event::GeneralCall { master, code: 0x06 },
            Event::Command { master, code: 3 },
            Event::Write { master, value: 50 },
            Event::Stop { master },
            Event::Command { master, code: 1 },
            Event::Write { master, value: 0x01 },
            Event::Stop { master },
        ];
        let own = &self.model.masters[master as usize];
        let hold = if own.has(SMBUS_SWRST) { 35 } else { 0 };
        events.resize(7 + hold, Event::Tick);
        let model = self.after(&events);
        let reserve = model.grant.filter(|grant| grant.owner == master as usize);
        reserve.is_some_and(|grant| grant.reserve == 50) && model.reserve_count == 50
    }

    /// The table of docs/RECOVERY.md: at rest and with SCL high, bit 0 of STATUS tells whether the
    /// other owns, or claims with its port open.
    fn is_told_by_status(&self) {
        let m = self.waiting as usize;
        let status = self.model.register(m, 2);
        let at_rest = self.model.masters[m].port == Port::AtRest;
        if at_rest && status & 0x40 != 0 {
            let owns = matches!(self.case, Case::Owns(_));
            assert_eq!((status & 0x01 != 0, self.case == Case::PortOpen), (owns, !owns));
        }
    }

    /// Holds what is said to what the model does, and gives the case's number.
    fn hold(&self) -> usize {
        let other = 1 - self.waiting as usize;
        let owns = self.model.owner() == Some(other);
        assert_eq!(owns, matches!(self.case, Case::Owns(_)));
        assert!(self.has_a_way_back(), "{:?}", self.case);
        self.is_told_by_status();
        match self.case {
            Case::Owns(End::Reserve(ticks)) => self.exactly(ticks, 0),
            Case::Owns(End::IdleTimer(ticks)) => self.exactly(ticks, 1),
            Case::Owns(End::NotIdle) => {
                assert!(self.is_never_in() && !self.model.is_idle());
                2
            }
            Case::Owns(End::Nothing) => self.never(3),
            Case::PortOpen => {
                assert!(self.model.masters[other].port != Port::AtRest);
                self.never(4)
            }
            Case::Held(ticks, None) => self.exactly(ticks, 5),
            Case::Held(ticks, Some(end)) => {
                assert_eq!(self.model.hold, ticks as i64);
                match end {
                    End::Reserve(more) | End::IdleTimer(more) => self.at_most(ticks + more, 6),
                    End::NotIdle | End::Nothing => self.never(7),
                }
            }
            Case::OwnStop => {
                assert!(self.is_in(0));
                8
            }
        }
    }

    fn exactly(&self, ticks: usize, number: usize) -> usize {
        assert!(ticks > 0 && self.is_in(ticks) && !self.is_in(ticks - 1), "{:?}", self.case);
        number
    }

    fn at_most(&self, ticks: usize, number: usize) -> usize {
        assert!(self.is_in(ticks), "{:?}", self.case);
        number
    }

    fn never(&self, number: usize) -> usize {
        assert!(self.is_never_in(), "{:?}", self.case);
        number
    }
}

/// Steps the library's device and the model's, and shows each moment at which one waits.
fn each_moment(part: Part, events: &[Event], mut see: impl FnMut(Moment)) {
    let mut device = Device::fresh(part);
    let mut model = model::Device::power_up_of(Kind::of(part.number()).unwrap());
    for &event in events {
        device.step(event);
        model.step(event.bytes());
        for waiting in Master::BOTH {
            let m = waiting as usize;
            let waits = model.masters[m].has(LOCK_REQ) && model.owner() != Some(m);
            let case = Case::of(&device, waiting);
            assert_eq!(case.is_some(), waits);
            let moment = |case| Moment { model: model.clone(), waiting, case };
            case.into_iter().for_each(|case| see(moment(case)));
        }
    }
}

#[test]
fn what_is_said_to_come_is_what_the_model_does() {
    let mut seen = [0; 9];
    for place in 0..400 {
        let run = gunwaleish::run(&trace(seed_of(34, place), 120)).unwrap();
        each_moment(run.part, &run.events, |moment| seen[moment.hold()] += 1);
    }
    // A claimant at rest under a hold, with its partner waiting, is too rare to be left to chance.
    for part in [Part::Pca9641, Part::Tpt29641] {
        for master in Master::BOTH {
            for (rt, contr) in [(0, 0x01), (0, 0x21), (1, 0x01), (50, 0x01)] {
                let events = claims_under_a_hold(master, rt, contr);
                each_moment(part, &events, |moment| seen[moment.hold()] += 1);
            }
        }
    }
    assert!(seen.iter().all(|&times| times > 5), "{seen:?}");
}

/// A soft reset with a hold; then this one claims with this RT and CONTR, and its partner asks.
fn claims_under_a_hold(master: Master, rt: u8, contr: u8) -> Vec<Event> {
    let sets = |master: Master, code: u8, value: u8| {
        [Event::Command { master, code }, Event::Write { master, value }, Event::Stop { master }]
    };
    let mut events = sets(master, 1, 0x10).to_vec();
    events.push(Event::GeneralCall { master, code: 0x06 });
    events.extend(sets(master, 3, rt));
    events.extend(sets(master, 1, contr));
    events.extend(sets(master.partner(), 1, 0x01));
    events.extend([Event::Tick; 60]);
    events
}

/// After its reset a controller that leaves out RT keeps the next one out for ever: the incident again,
/// with the roles changed. With RT 50 it does not.
#[test]
fn a_way_back_without_a_reserve_is_the_next_trap() {
    let sets = |master: Master, code: u8, value: u8| {
        [Event::Command { master, code }, Event::Write { master, value }, Event::Stop { master }]
    };
    let (stalled, master) = (Master::Zero, Master::One);
    for (rt, expected) in [(None, End::Nothing), (Some(50), End::Reserve(50))] {
        let mut device = Device::fresh(Part::Pca9641);
        let mut events = sets(stalled, 1, 0x05).to_vec();
        events.push(Event::GeneralCall { master, code: 0x06 });
        events.extend(rt.map(|rt| sets(master, 3, rt)).into_iter().flatten());
        events.extend(sets(master, 1, 0x01));
        events.extend(sets(stalled, 1, 0x01));
        let last = events.into_iter().map(|event| device.step(event)).last().unwrap();
        assert_eq!(last.owner, Some(master));
        assert_eq!(Case::of(&device, stalled), Some(Case::Owns(expected)));
        device.advance(5_000).unwrap();
        assert_eq!(Case::of(&device, stalled).is_some(), rt.is_none());
    }
}

/// Each case has its own words, and they say in so many words whether waiting helps.
#[test]
fn each_case_is_told_in_words() {
    let ends = [End::Reserve(7), End::IdleTimer(7), End::NotIdle, End::Nothing];
    let owns = ends.map(Case::Owns);
    let held = ends.map(|end| Case::Held(3, Some(end)));
    let others = [Case::PortOpen, Case::Held(3, None), Case::OwnStop];
    let mut all: Vec<String> = vec![];
    for case in owns.into_iter().chain(held).chain(others) {
        let words = said(case, Master::One, false);
        assert!(!all.contains(&words), "{words}");
        let helps = words.starts_with("Waiting helps controller 1: ")
            || words.starts_with("Controller 1 needs its own STOP: ");
        assert_eq!(helps, case.waiting_helps(), "{words}");
        assert_eq!(words.contains("docs/RECOVERY.md"), !helps, "{words}");
        let open = said(case, Master::One, true);
        assert!(open.contains("its own STOP"), "{open}");
        all.push(words);
    }
}

/// As people see it: the last line of a run in which controller 1 waits.
#[test]
fn explain_ends_with_it() {
    let last = |events: &str| {
        let script = format!("pins 0 0 0 1\npart TPT29641\n{events}");
        let input = |bytes: Vec<u8>| Input { name: "a".to_string(), bytes };
        let trace = compose::compose(&input(script.into_bytes())).output.unwrap();
        let told = String::from_utf8(explain::explain(&input(trace)).output.unwrap()).unwrap();
        // A line that is too long goes on below, set in.
        told.replace("\n    ", " ").lines().last().unwrap().to_string()
    };
    let asks = |m: u8, rt: &str, contr: &str| {
        format!("command {m} 03\nwrite {m} {rt}\nstop {m}\ncommand {m} 01\nwrite {m} {contr}\nstop {m}\n")
    };
    let waits = asks(1, "32", "01");
    for (first, then, words) in [
        (asks(0, "32", "05"), "tick 20\n", "controller 0's reserve ends in 30 ticks"),
        (asks(0, "00", "25"), "tick 20\n", "its idle timer ends the grant in 131 ticks"),
        (asks(0, "00", "05"), "tick 20\n", "has RT 00h and its idle timer off"),
        (
            asks(0, "32", "05"),
            "lines 1 0 1\ntick 90\n",
            "a transfer has not ended or a line is low",
        ),
        ("command 0 01\nwrite 0 01\n".to_string(), "tick 9\n", "inside a transfer to the arbiter"),
        (asks(0, "00", "11"), "command 1 01\n", ", and its own STOP has to come. Its own way out"),
    ] {
        let told = last(&format!("{first}{waits}{then}"));
        assert!(told.contains(words), "{told}");
    }
    let reset = format!("{}general 0 06\n{waits}tick 5\n", asks(0, "00", "11"));
    let told = last(&reset);
    assert!(told.contains("holds SCL low for 30 ticks more, and then it is the owner"), "{told}");
    assert!(last(&asks(0, "32", "05")).starts_with("controller 1: owned 0 ticks"), "nobody waits");
}
