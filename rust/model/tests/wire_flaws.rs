//! The chips that err, in the captures by hand: each that can show does, at the sample that the
//! generator knows, and a right chip is never accused.

use model::part::BOTH_KINDS;
use model::wire::chip::flaws;
use model::wire::listen::listen;
use model::wire::play::play;
use model::wire::stories::stories;
use model::wire::{Flaw, Played};
use model::Kind;

/// A story's capture, with this chip, as heard. Generator and listener agree on it.
fn told(name: &str, kind: Kind, flaw: Flaw) -> Played {
    let story = stories().into_iter().find(|story| story.name == name).expect(name);
    let played = play(&story.scene(kind, flaw, 14));
    let heard = listen(played.setting, &played.samples);
    assert_eq!(heard.events, played.events, "{name} {kind:?} {flaw:?}");
    assert_eq!(heard.reads, played.reads, "{name} {kind:?} {flaw:?}");
    assert_eq!(heard.faults, [], "{name} {kind:?} {flaw:?}");
    played
}

fn names() -> Vec<&'static str> {
    stories().iter().map(|story| story.name).collect()
}

#[test]
fn no_right_chip_is_accused() {
    for kind in BOTH_KINDS {
        for name in names() {
            let played = told(name, kind, Flaw::None);
            assert_eq!(played.first_wrong(), None, "{name} {kind:?}");
            assert!(played.reads.len() > 10, "{name} {kind:?}: {} reads", played.reads.len());
        }
    }
}

/// Each is found in a story, but for those that no capture shows, which no story does.
#[test]
fn each_chip_that_errs_is_found() {
    for flaw in flaws() {
        for kind in BOTH_KINDS {
            let shows = |name: &&str| told(name, kind, flaw).first_wrong().is_some();
            let found = names().into_iter().find(shows);
            assert_eq!(found.is_none(), flaw.never_shows(), "{flaw:?} {kind:?}: {found:?}");
        }
    }
}

/// What the first wrong byte of a story is: the sample's tick, the register, heard and expected.
fn first(name: &str, kind: Kind, flaw: Flaw) -> (u64, u8, u8) {
    let played = told(name, kind, flaw);
    let wrong = played.reads.iter().find(|read| read.is_wrong()).expect(name);
    (wrong.sample / played.setting.samples_per_tick, wrong.heard, wrong.expected)
}

/// Some of them by hand, from the papers: what is seen, and at which tick.
#[test]
fn where_some_of_them_show() {
    let (pca, tpt) = (Kind::Pca9641, Kind::Tpt29641);
    // The owner is granted before tick 1, so its idle ticks are the ticks. The idle timer at 100 has
    // taken the bus at tick 100: CONTR has neither request nor grant, nor BUS_CONNECT.
    assert_eq!(first("idle", pca, Flaw::IdleAt100), (100, 0x20, 0x27));
    assert_eq!(first("idle", tpt, Flaw::IdleAt100), (100, 0x20, 0x27));
    // The second source sold as the first still has the bus at tick 101; the first sold as the second
    // has lost it then.
    assert_eq!(first("idle", pca, Flaw::OtherKind), (101, 0x27, 0x20));
    assert_eq!(first("idle", tpt, Flaw::OtherKind), (101, 0x20, 0x27));
    // A reserve of 3 that ends at tick 2.
    assert_eq!(first("take-over", pca, Flaw::ReserveShort), (2, 0x00, 0x07));
    // RT 00h as run out: the partner of the stalled owner is granted and connected at once.
    assert_eq!(first("box14", pca, Flaw::RtZeroRunsOut), (4, 0x07, 0x05));
    // A grant with the byte: CONTR F7h is read before the STOP.
    assert_eq!(first("registers", pca, Flaw::GrantAtByte), (2, 0xF7, 0xF5));
    // SDA low from tick 5 on, the clock moving at 300 and 301: hung at its 500th tick, 505, to the eager one.
    assert_eq!(first("hung", pca, Flaw::HungEager), (505, 0x4C, 0x48));
}
