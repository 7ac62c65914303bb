//! Pictures of the longest runs in a page: a page draws them anew at every key.

mod common;
mod shapes;

use std::fs;

use common::root;
use shapes::{boxes, elements, joined};

use gunwaleish::{write_trace, Event, Master, Part, MOST_EVENTS};
use gunwaleish_tool::commands::picture::picture;
use gunwaleish_tool::files::Input;
use gunwaleish_tool::picture::draw_in_page;
use gunwaleish_tool::story::follow;
use model::traces::trace;

/// So many elements has a picture in a page at the most.
const MOST_ELEMENTS: usize = 500;

/// A trace of as many events as there can be: these, over and over.
fn long(events: &[Event]) -> Vec<u8> {
    let all: Vec<Event> = events.iter().copied().cycle().take(MOST_EVENTS).collect();
    write_trace([0; 4], Part::Pca9641, &all).unwrap()
}

/// What a key can ask for: transfers with a tick in each, grants that are taken and let go, refused events, lines that toggle.
fn long_runs() -> [(&'static str, Vec<u8>); 4] {
    let (zero, one) = (Master::Zero, Master::One);
    let byte = |master, value| {
        [Event::Command { master, code: 1 }, Event::Write { master, value }, Event::Stop { master }]
    };
    let lines = |sda| Event::Lines { scl: true, sda, int_in: true };
    let transfers = [&byte(zero, 5)[..], &byte(one, 5), &[Event::Tick]].concat();
    let grants = [byte(zero, 5), byte(zero, 0), byte(one, 5), byte(one, 0)].concat();
    [
        ("transfers", long(&transfers)),
        ("grants", long(&grants)),
        ("refused", long(&[Event::Raw([0xFF, 0, 0, 0]), Event::Stop { master: zero }])),
        ("lines", long(&[lines(false), lines(true)])),
    ]
}

/// A browser takes its time for every element, so that a picture in a page has few of them, however long the run is and whatever happens
/// in it.
#[test]
fn a_long_run_in_a_page_has_few_elements() {
    let random = (0..6).map(|seed| ("random", trace(seed, MOST_EVENTS)));
    for (name, bytes) in
        long_runs().into_iter().chain([("ticks", long(&[Event::Tick]))]).chain(random)
    {
        let text = draw_in_page(&follow(&bytes).unwrap(), "a label");
        assert!(elements(&text) <= MOST_ELEMENTS, "{name}: {}", elements(&text));
    }
}

/// In a page, crosses that would lie on each other are one; in a file each event has its own. Both reach from the first to the last.
#[test]
fn crosses_that_nobody_can_tell_apart_are_one() {
    let [_, _, (_, bytes), _] = long_runs();
    let story = follow(&bytes).unwrap();
    let file = picture(&Input { name: "a.trace".to_string(), bytes }).output.unwrap();
    let file = String::from_utf8(file).unwrap();
    let refused = story.steps.iter().filter(|step| step.answer.outcome.is_refused()).count();
    assert_eq!(joined(&file, "cross").len(), refused + 1);
    let page = draw_in_page(&story, "a label");
    let crosses: Vec<f64> = joined(&page, "cross")
        .iter()
        .map(|shape| shape.split(' ').next().unwrap().parse().unwrap())
        .collect();
    assert!((300..1500).contains(&crosses.len()), "{}", crosses.len());
    for [x, _, width, _] in boxes(&page, "ground") {
        let near = |at: f64| crosses.iter().any(|cross| (cross + 3.5 - at).abs() < 2.5);
        assert!(near(x) && near(x + width));
    }
}

/// A bar that is too narrow to be pointed at says what it is, and a wider one from when to when.
#[test]
fn bars_say_what_they_are() {
    let [_, (_, bytes), _, _] = long_runs();
    let text = draw_in_page(&follow(&bytes).unwrap(), "a label");
    assert!(text.contains("<title>controller 0: owns, connected</title></path>"), "{text}");
    assert!(!text.contains("<title>controller 0: owns, connected, tick"));
    let box14 = fs::read(root().join("traces/box14-rt50.trace")).unwrap();
    let text = draw_in_page(&follow(&box14).unwrap(), "a label");
    assert!(text.contains("<title>controller 0: owns, connected, tick 0 to 50</title></rect>"));
}
