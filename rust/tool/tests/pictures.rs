//! Pictures: what is marked in them, how they fit on paper, and those of a shelf and of the bus share.

mod common;
mod shapes;

use std::fs;

use common::{code, root, run, said, told, Folder};
use shapes::{boxes, joined, number};

use gunwaleish::{write_trace, Event, Part};
use gunwaleish_tool::commands::picture::{picture, picture_of, Window};
use gunwaleish_tool::files::Input;
use gunwaleish_tool::picture::{draw_in_page, style_in_page};
use gunwaleish_tool::story::follow;
use gunwaleish_tool::version::TOOL;
use model::traces::trace;

/// The height of a page, in the units of a picture.
const PAGE: f64 = 713.0;

fn drawn(bytes: Vec<u8>) -> String {
    let made = picture(&Input { name: "a/b.trace".to_string(), bytes });
    String::from_utf8(made.output.unwrap()).unwrap()
}

fn sample(name: &str) -> Vec<u8> {
    fs::read(root().join(format!("traces/{name}.trace"))).unwrap()
}

/// How often a sign is drawn, that of the legend left out.
fn signs(picture: &str, sign: &str) -> usize {
    picture.matches(sign).count() - 1
}

/// The end of every run is marked; of a run of no ticks it is said that it takes no time, and its bars end
/// there.
#[test]
fn the_end_is_marked() {
    for seed in 0..40 {
        let text = drawn(trace(seed, 1 + seed as usize * 11));
        assert_eq!(signs(&text, "<line class=\"end\""), 1, "seed {seed}");
        assert!(text.contains(">end</text>"));
    }
    let text = drawn(sample("m1"));
    assert!(text.contains(">no tick: all of it takes no time</text>"), "{text}");
    let end = text.lines().find(|line| line.starts_with("<line class=\"end\"")).unwrap();
    let end = number(end, "x1");
    let bars = boxes(&text, "c0").into_iter().filter(|bar| bar[3] > 20.0);
    let bars: Vec<[f64; 4]> = bars.collect();
    assert_eq!(bars.len(), 1);
    assert!((bars[0][0] + bars[0][2] - end).abs() < 0.2, "{bars:?}, {end}");
    assert!(!drawn(sample("box14-rt00")).contains("no tick: "));
}

/// Each byte that a full mailbox drops has its triangle, and each refused event its cross.
#[test]
fn what_is_dropped_and_refused_is_marked() {
    let (mut dropped, mut refused) = (0, 0);
    let samples = ["takeover", "burst", "mail", "box14-rt50"].map(sample);
    for bytes in samples.into_iter().chain((0..40).map(|seed| trace(seed, 90))) {
        let story = follow(&bytes).unwrap();
        let text = drawn(bytes);
        let bytes_dropped: usize =
            story.steps.iter().map(|step| step.dropped.iter().filter(|flag| **flag).count()).sum();
        // One more of each stands in the legend.
        assert_eq!(joined(&text, "dropped").len(), bytes_dropped + 1);
        // A PAIR stands in both lanes.
        let lanes = |event: Event| if matches!(event, Event::Pair { .. }) { 2 } else { 1 };
        let marked = story.steps.iter().filter(|step| step.answer.outcome.is_refused());
        let crosses: usize = marked.map(|step| lanes(step.event)).sum();
        assert_eq!(joined(&text, "cross").len(), crosses + 1);
        dropped += bytes_dropped;
        refused += crosses;
    }
    assert!(dropped > 5 && refused > 20, "{dropped} {refused}");
}

/// Every class of a sign that a lane can show has its words below.
#[test]
fn the_legend_is_complete() {
    let text = drawn(sample("hung-bus"));
    let legend = [
        "asks and waits",
        "owns, switch open",
        "owns and is connected",
        "interrupt output asserted",
        "line low",
        "initialising",
        "hung",
        "events set apart, no time passes",
        "event refused",
        "refused or not acknowledged",
        "byte dropped: mailbox full",
        "end of the run",
        "quiet ticks folded",
    ];
    for words in legend {
        assert!(text.contains(&format!(">{words}</text>")), "{words}");
    }
}

#[test]
fn what_it_is_made_of_stands_beneath() {
    let bytes = sample("box14-rt50");
    let foot = format!(">b.trace, {} bytes; {TOOL}</text>", bytes.len());
    let text = drawn(bytes);
    assert!(text.contains(&foot), "{text}");
    let last = text.lines().rev().find(|line| line.starts_with("<text")).unwrap();
    assert!(last.ends_with(&foot[..foot.len()]), "{last}");
}

/// One page, or several with nothing across two; and never wider than a page.
#[test]
fn pictures_print_on_a4() {
    let mut paged = 0;
    let long = (0..12).map(|seed| trace(seed, 900)).chain([trace(5, 4096), ticks(4000)]);
    let samples = ["m1", "box14-rt00", "recovery", "hung-bus", "pair", "mail"].map(sample);
    for bytes in samples.into_iter().chain(long).chain((0..30).map(|seed| trace(seed, 60))) {
        let text = drawn(bytes);
        let head = text.lines().next().unwrap();
        let (wide, high) = (number(head, "width"), number(head, "height"));
        assert!(wide <= 277.0, "{head}");
        let grounds = boxes(&text, "ground");
        if grounds.len() == 1 {
            assert!(high <= 190.05, "{head}");
            continue;
        }
        paged += 1;
        for [x, y, width, height] in grounds {
            let page = |at: f64| (at / PAGE).floor();
            assert!(page(y) == page(y + height), "{y} {height}");
            assert!(x + width <= 1040.0, "{x} {width}");
        }
    }
    assert!(paged > 5, "{paged}");
}

/// A trace of so many ticks, after a request that is granted.
fn ticks(number: usize) -> Vec<u8> {
    let master = gunwaleish::Master::Zero;
    let mut events = vec![
        Event::Command { master, code: 1 },
        Event::Write { master, value: 5 },
        Event::Stop { master },
    ];
    events.extend(vec![Event::Tick; number]);
    write_trace([0; 4], Part::Pca9641, &events).unwrap()
}

/// Many ticks in which nothing changes take little room, and it is said how many there are.
#[test]
fn quiet_ticks_are_folded_in_a_long_run() {
    let text = drawn(ticks(4000));
    assert!(text.contains(">4000 folded</text>"), "{text}");
    assert_eq!(boxes(&text, "ground").len(), 1);
    assert!(!drawn(ticks(300)).contains("300 folded</text>"));
}

/// In a page of HTML it is as wide as the page and no higher than a sheet of A4, with the same signs; what
/// the page says is left out, and its style bears on nothing else.
#[test]
fn a_run_in_a_page() {
    let long = (0..8).map(|seed| trace(seed, 900)).chain([trace(5, 4096), ticks(4000)]);
    let samples = ["m1", "box14-rt00", "recovery", "hung-bus", "pair", "mail"].map(sample);
    let mut several = 0;
    for bytes in samples.into_iter().chain(long).chain((0..30).map(|seed| trace(seed, 60))) {
        let story = follow(&bytes).unwrap();
        let text = draw_in_page(&story, "a <label>");
        let head =
            "<svg class=\"run\" role=\"img\" aria-label=\"a &lt;label&gt;\" viewBox=\"0 0 740 ";
        let high = text.strip_prefix(head).and_then(|rest| rest.split('"').next()).unwrap();
        // 200 mm where it is 155 mm wide; the caption and what is said of the run take the rest of a sheet.
        assert!(high.parse::<f64>().unwrap() < 955.0, "{high}");
        let grounds = boxes(&text, "ground");
        assert!((1..=3).contains(&grounds.len()), "{}", grounds.len());
        assert!(grounds.iter().all(|[x, _, width, _]| x + width < 740.0));
        several += usize::from(grounds.len() > 1);
        assert_eq!(signs(&text, "<line class=\"end\""), 1);
        let refused = story.steps.iter().any(|step| step.answer.outcome.is_refused());
        assert_eq!(joined(&text, "cross").len() > 1, refused);
        for class in ["title", "verdict", "line", "paper"] {
            assert!(!text.contains(&format!("class=\"{class}\"")), "{class}");
        }
    }
    assert!(several > 5, "{several}");
    let folded = draw_in_page(&follow(&ticks(4000)).unwrap(), "a label");
    assert!(
        folded.contains(">4000 folded</text>") && folded.contains(">quiet ticks folded</text>")
    );
    assert!(style_in_page()
        .lines()
        .all(|rule| rule.starts_with("svg.run ") && rule.ends_with('}')));
}

/// A part of a run has what goes on at its beginning, and the ticks of the whole.
#[test]
fn a_part_of_a_run() {
    let input = Input { name: "a.trace".to_string(), bytes: sample("box14-rt50") };
    let part = |from, to| picture_of(&input, Window { from, to });
    let text = String::from_utf8(part(Some(40), Some(60)).output.unwrap()).unwrap();
    assert!(text.contains("; from tick 40 to 60</text>"), "{text}");
    assert!(text.contains(">controller 0: owns, connected, tick 0 to 50</title>"), "{text}");
    assert!(text.contains(">controller 1: owns, connected, tick 50 to 100</title>"), "{text}");
    assert!(!text.contains(">COMMAND RT</title>") && !text.contains(">STOP</text>"));
    assert_eq!(text.matches("<line class=\"end\"").count(), 1, "the legend alone has it");
    let label = |tick: &str| {
        let end = format!(">{tick}</text>");
        number(
            text.lines().find(|line| line.ends_with(&end)).unwrap_or_else(|| panic!("{tick}")),
            "x",
        )
    };
    let [left, _, width, _] = boxes(&text, "ground")[0];
    assert!((label("40") - left - width / 21.0).abs() < 0.2, "what comes first is the tick to 40");
    assert!((label("60") - left - width).abs() < 0.2);
    let last = String::from_utf8(part(Some(300), None).output.unwrap()).unwrap();
    assert!(last.contains("COMMAND INT_STATUS</text>"), "{last}");
    assert_eq!(last.matches("<line class=\"end\"").count(), 2);
    let none = part(Some(301), None).refused.unwrap();
    assert_eq!(none, "a.trace: nothing to show there; the run has 300 ticks");
}

#[test]
fn a_part_as_people_ask_for_it() {
    let run = |words: &[&str]| run(&[&["picture", "traces/box14-rt50.trace"], words].concat());
    let ways = [vec!["--from", "40", "--to", "60"], vec!["--from=40", "--to=60"]];
    let [first, second] = ways.map(|words| told(&run(&words)));
    assert!(first == second && first.contains("; from tick 40 to 60<"));
    let cases: [(&[&str], i32, &str); 5] = [
        (
            &["--from", "60", "--to", "40"],
            2,
            "--from 60 is after --to 40; gunwaleish picture --help",
        ),
        (&["--from", "-3"], 2, "--from needs a number of ticks, and has '-3'"),
        (&["--to", "x"], 2, "--to needs a number of ticks, and has 'x'"),
        (&["--from"], 2, "--from needs a number of ticks; gunwaleish"),
        (&["--from", "1000"], 1, "nothing to show there; the run has 300 ticks"),
    ];
    for (words, expected, text) in cases {
        let output = run(words);
        assert_eq!((code(&output), output.stdout.len()), (expected, 0), "{words:?}");
        assert!(said(&output).contains(text), "{}", said(&output));
    }
}

/// A row a device, and in the sample the hung one.
#[test]
fn a_shelf_has_a_row_a_device() {
    let (shelf, script) = ("traces/shelf/chassis.shelf", "traces/shelf/hang.script");
    let output = run(&["picture", "--shelf", shelf, script]);
    assert_eq!((code(&output), said(&output)), (0, String::new()));
    let text = told(&output);
    assert!(text.contains(">chassis.shelf, hang.script: 4 devices, "), "{text}");
    for place in ["place 0, 70h", "place 1, 71h", "place 2, 72h", "place 3, 73h"] {
        assert!(text.contains(&format!(">{place}</text>")), "{place}");
    }
    let rows: Vec<f64> = boxes(&text, "hung").iter().filter(|b| b[3] < 9.0).map(|b| b[1]).collect();
    assert!(!rows.is_empty() && rows.iter().all(|y| *y == rows[0]), "one row is hung: {rows:?}");
    let size = |path: &str| fs::metadata(root().join(path)).unwrap().len();
    let foot = format!(
        ">chassis.shelf, {} bytes; hang.script, {} bytes; {TOOL}</text>",
        size(shelf),
        size(script)
    );
    assert!(text.contains(&foot), "{text}");
    let cases: [(&[&str], i32, &str); 4] = [
        (
            &["--shelf", shelf],
            2,
            "--shelf needs two files, the shelf and then the script, and has 1",
        ),
        (&["--shelf", "--share", shelf, script], 2, "--shelf and --share are both there"),
        (&["--shelf", shelf, script, "--from", "3"], 2, "--from and --to show a part of a trace"),
        (&["--shelf", "traces/shelf/twice.shelf", script], 1, "refusal 17: "),
    ];
    for (words, expected, text) in cases {
        let output = run(&[&["picture"], words].concat());
        assert_eq!((code(&output), output.stdout.len()), (expected, 0), "{words:?}");
        assert!(said(&output).contains(text), "{}", said(&output));
    }
}

/// The bars are as long as the shares: of box 14 left empty, controller 0 owned all and controller 1 waited.
#[test]
fn the_share_has_bars_a_controller() {
    let folder = Folder::new("share-picture");
    let out = folder.path("share.svg");
    let draw = |paths: &[&str]| {
        let output = run(&[&["picture", "--share"], paths, &["-o", &out]].concat());
        (code(&output), said(&output), fs::read_to_string(&out).unwrap_or_default())
    };
    let (code, said, text) = draw(&["traces/box14-rt00.trace"]);
    assert_eq!((code, said.as_str()), (0, ""));
    let wide = |class: &str| -> f64 {
        boxes(&text, class).iter().filter(|b| b[3] == 30.0).map(|b| b[2]).sum()
    };
    assert_eq!((wide("c0"), wide("c1"), wide("waits"), wide("nobody")), (880.0, 0.0, 880.0, 0.0));
    let figures = "waited 300 ticks, 100.0 %; longest wait 300 ticks</text>";
    assert!(text.contains(figures), "{text}");
    let (_, _, text) = draw(&["traces/box14-rt50.trace"]);
    let wide = |class: &str| boxes(&text, class)[0][2];
    assert!((wide("c0") - 880.0 * 49.0 / 300.0).abs() < 0.1, "{}", wide("c0"));
    assert!((wide("nobody") - 880.0 * 201.0 / 300.0).abs() < 0.1);
    let (code, said, text) = draw(&["traces"]);
    assert_eq!(code, 0);
    assert!(said.contains("traces: ") && text.contains(", 2 refused, "), "{said}");
    let (_, _, text) = draw(&["traces/pair.trace", "traces/box14-rt00.trace", "traces/m1.trace"]);
    assert!(text.contains(">traces/pair.trace and 2 more: 3 traces, 0 refused, "), "{text}");
    let nothing = run(&["picture", "--share", "traces/m1.trace"]);
    assert_eq!((common::code(&nothing), nothing.stdout.len()), (1, 0));
}

/// The pictures of the pages are what the commands there write.
#[test]
fn the_pages_have_their_pictures() {
    for (page, file) in [("docs/SHELF.md", "shelf-hang.svg"), ("docs/SHARE.md", "share-box14.svg")]
    {
        let text = fs::read_to_string(root().join(page)).unwrap();
        let end = format!(" -o docs/pictures/{file}");
        let line = text.lines().find_map(|line| line.strip_suffix(&end)).unwrap();
        let drawn = common::shell(line);
        assert_eq!(code(&drawn), 0, "{line}: {}", said(&drawn));
        let stored = fs::read_to_string(root().join("docs/pictures").join(file));
        assert!(
            stored.is_ok_and(|stored| stored == told(&drawn)),
            "{line} -o docs/pictures/{file}"
        );
        assert!(text.contains(&format!("](pictures/{file})")), "{page}");
    }
}
