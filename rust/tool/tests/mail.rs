//! Bytes dropped on a full mailbox, as `explain` tells them (#111).

use gunwaleish::{Event, Master};
use gunwaleish_tool::commands::explain;
use gunwaleish_tool::files::Input;
use gunwaleish_tool::story::{follow, Story};
use gunwaleish_tool::words::dropped;
use model::part::Kind;
use model::traces::{seed_of, trace};
use model::Device;

fn sample(name: &str) -> Input {
    let path = format!("{}/../../traces/{name}.trace", env!("CARGO_MANIFEST_DIR"));
    Input { name: name.to_string(), bytes: std::fs::read(path).unwrap() }
}

/// The events of a sample of which a drop is told, by their numbers.
fn told(name: &str) -> Vec<(usize, String)> {
    let story = follow(&sample(name).bytes).unwrap();
    story.steps.iter().filter_map(|step| Some((step.number, dropped(step)?))).collect()
}

/// In the sample a second word comes to a full box: both of its bytes are dropped. Then a PAIR in
/// which both bytes meet a full box, and two in which one does.
#[test]
fn the_sample_tells_it_in_words() {
    let why = "dropped: the box is full".to_string();
    let both = "both dropped: the boxes are full".to_string();
    let half = format!("0: {why}");
    let expected = [(6, why.clone()), (7, why), (22, both), (28, half.clone()), (29, half)];
    assert_eq!(told("takeover"), expected);
}

#[test]
fn explain_has_it_in_the_line_of_the_byte() {
    let text = String::from_utf8(explain::explain(&sample("takeover")).output.unwrap()).unwrap();
    let lines = |what: &str| text.lines().filter(|line| line.contains(what)).collect::<Vec<_>>();
    let byte = lines("0 WRITE 78h to mailbox low");
    assert!(matches!(byte[..], [line] if line.ends_with("  dropped: the box is full")), "{text}");
    assert_eq!(lines("dropped").len(), 5);
}

/// What the model's device says: the byte goes to 6 or 7 of a box that is full.
fn drops(before: &Device, event: Event) -> [bool; 2] {
    let meets = |m: usize| before.masters[m].pointer >= 6 && before.masters[1 - m].mail_full;
    match event {
        Event::Write { master: Master::Zero, .. } => [meets(0), false],
        Event::Write { master: Master::One, .. } => [false, meets(1)],
        Event::Pair { .. } => [meets(0), meets(1)],
        _ => [false; 2],
    }
}

#[test]
fn drops_are_the_models() {
    let mut seen = [0; 2];
    for seed in (0..150).map(|place| seed_of(111, place)) {
        let story: Story = follow(&trace(seed, 400)).unwrap();
        let kind = Kind::of(story.part.number()).unwrap();
        let mut device = Device::power_up_of(kind);
        for step in &story.steps {
            let before = device.clone();
            let answer = device.step(step.event.bytes());
            let expected = if answer[0] < 2 { drops(&before, step.event) } else { [false; 2] };
            assert_eq!(step.dropped, expected, "event {}", step.number);
            (0..2).for_each(|m| seen[m] += usize::from(expected[m]));
        }
    }
    assert!(seen.iter().all(|&times| times > 10), "{seen:?}");
}
