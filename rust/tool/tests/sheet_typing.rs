//! Typing errors in the text form of an order sheet: each is told with its line and word and with what was
//! expected, and none becomes a sheet.

use std::collections::BTreeSet;

use gunwaleish_tool::commands::fill::{fill, MOST_TEXT};
use gunwaleish_tool::files::Input;
use gunwaleish_tool::form::{read, sheet_of};
use gunwaleish_tool::sheet::BoxName;
use model::rng::Rng;

const TEXT: &str = "\
Downstream reserve, ms, controller 0: 50
Downstream reserve, ms, controller 1: without limit
Priority, controller 0: 0
Priority, controller 1: empty
Idle timer, controller 0: empty
Idle timer, controller 1: 1
";

/// What is said of a text, a line for each typing error.
fn said(text: impl AsRef<[u8]>) -> Vec<String> {
    let made = fill(&Input { name: "a.txt".to_string(), bytes: text.as_ref().to_vec() });
    assert_eq!(made.output, None);
    made.refused.unwrap().lines().map(String::from).collect()
}

/// What is said of the text with this value in a box, where nothing else is wrong.
fn said_of(place: usize, value: &str) -> String {
    let mut lines: Vec<String> = TEXT.lines().map(String::from).collect();
    lines[place] = format!("{}: {value}", BoxName::all().nth(place).unwrap());
    let all = said(lines.join("\n"));
    let [one] = &all[..] else { panic!("{all:?}") };
    let said = one.strip_prefix(&format!("a.txt, line {}: ", place + 1));
    said.unwrap_or_else(|| panic!("{one}")).to_string()
}

/// A 0 of a reserve in any spelling is refused with the advice to write what it stands for.
#[test]
fn a_bare_0_is_no_reserve() {
    let advice = "expected 1 to 255, or in words what the 0 stands for: without limit, if the controller \
                  is to keep the bus until it lets go, or empty, if nothing is ordered; a 0 that nobody \
                  meant is how the incident came about";
    let spellings = [
        "0", "00", "000", "0000000", "0x", "0x0", "0x00", "0X0", "0h", "00h", "00H", "$0", "0 ms",
        "0ms", "0.0", "-0", "+0", "0 0",
    ];
    for spelling in spellings {
        assert_eq!(said_of(0, spelling), format!("'{spelling}', {advice}"));
        assert_eq!(said_of(1, spelling), format!("'{spelling}', {advice}"));
    }
}

const A_RESERVE: &str = "a whole number of ms in decimal, 1 to 255, or without limit, or empty";

/// What else is no reserve.
const NO_RESERVES: [&str; 29] = [
    "256",
    "300",
    "1000",
    "99999999999999999999",
    "-1",
    "+50",
    "0.5",
    "50.0",
    "5e1",
    "5 s",
    "5s",
    "2 min",
    "fifty",
    "no limit",
    "without",
    "limit",
    "without limits",
    "withoutlimit",
    "unlimited",
    "none",
    "-",
    "?",
    "٥٠",
    "h",
    "0x100",
    "ms",
    "300 ms",
    "50, please",
    "empty: 5",
];

#[test]
fn a_reserve_is_told_with_what_was_expected() {
    for value in NO_RESERVES {
        assert_eq!(said_of(0, value), format!("'{value}', expected {A_RESERVE}"));
    }
    let unit = "alone: the box is in ms, and a value has no unit";
    let advised = [
        ("50 ms", format!("'50 ms', expected 50 {unit}")),
        ("50ms", format!("'50ms', expected 50 {unit}")),
        ("255 Milliseconds", format!("'255 Milliseconds', expected 255 {unit}")),
        ("1 tick", format!("'1 tick', expected 1 {unit}")),
        ("0x32", "'0x32', expected a decimal number: 0x32 is 50".to_string()),
        ("32h", "'32h', expected a decimal number: 32h is 50".to_string()),
        ("$fF", "'$fF', expected a decimal number: $fF is 255".to_string()),
        ("050", "'050', expected 50 without a 0 before it".to_string()),
        ("", format!("nothing after the colon, expected {A_RESERVE}")),
        ("50 60", "'60', expected the line's end".to_string()),
        ("empty 0", "'0', expected the line's end".to_string()),
        ("Without  Limit  at all", "'at all', expected the line's end".to_string()),
    ];
    for (value, expected) in advised {
        assert_eq!(said_of(1, value), expected);
    }
}

/// Priority and idle timer are 0 or 1, and nothing else.
#[test]
fn a_flag_is_0_or_1() {
    let priority = "expected 0 (without priority), 1 (with priority) or empty";
    for value in ["2", "00", "01", "yes", "on", "without limit", "0x1", "1.", "true", "50"] {
        assert_eq!(said_of(2, value), format!("'{value}', {priority}"));
        assert_eq!(said_of(3, value), format!("'{value}', {priority}"));
        assert_eq!(said_of(4, value), format!("'{value}', expected 0 (off), 1 (on) or empty"));
    }
    assert_eq!(said_of(5, "1 on"), "'on', expected the line's end");
    assert_eq!(said_of(5, ""), "nothing after the colon, expected 0 (off), 1 (on) or empty");
}

/// Every short word in a reserve box: a number of 1 to 255 in its one spelling, or refused. None of them is
/// a 0 or an empty box.
#[test]
fn no_short_word_becomes_a_0() {
    let letters = "0125 9xhms+-.e\t".split("").filter(|letter| letter.len() < 2);
    let mut words = BTreeSet::from([String::new()]);
    for _ in 0..4 {
        let longer = |word: &String| letters.clone().map(move |l| format!("{word}{l}")).collect();
        words = words.iter().flat_map::<Vec<String>, _>(longer).collect();
    }
    let mut good = 0;
    for word in words {
        let text = TEXT.replace(": 50\n", &format!(": {word}\n"));
        let number: Option<u8> = word.trim().parse().ok();
        match number.filter(|&value| value > 0 && value.to_string() == word.trim()) {
            Some(value) => {
                assert_eq!(read(text.as_bytes()).unwrap()[0], Some(value), "{word}");
                good += 1;
            }
            None => assert_eq!(read(text.as_bytes()).unwrap_err().len(), 1, "{word:?}"),
        }
    }
    assert!(good > 100, "{good}");
}

const MISSING: &str =
    "; a box that stays empty has a line too, with the word empty after the colon";

/// A name that no box has is told with the nearest, and that box is not told as missing besides.
#[test]
fn a_mistyped_name_is_told_with_the_nearest() {
    let reserve = "Downstream reserve, ms, controller";
    let one = format!("the nearest is \"{reserve} 0\"");
    let two = format!("the nearest are \"{reserve} 0\" and \"{reserve} 1\"");
    let cases = [
        ("Downstream reserve, ms, controler 0", &one),
        ("Downstream reserve, controller 0", &one),
        ("downstream reserve,ms,controller 0", &one),
        ("Downstream reserve, ms, controller 2", &two),
        ("Downstream reserve, ms", &two),
    ];
    let expected = "expected the name of a box and a colon";
    for (name, nearest) in cases {
        let text = TEXT.replace("Downstream reserve, ms, controller 0", name);
        assert_eq!(said(text), [format!("a.txt, line 1: '{name}', {expected}; {nearest}")]);
    }
    let far = said(TEXT.replace("Priority, controller 0", "Colour"));
    let boxes =
        "a box is \"Downstream reserve, ms\", \"Priority\" or \"Idle timer\", each with \", \
                 controller 0\" or \", controller 1\"";
    assert_eq!(far[0], format!("a.txt, line 3: 'Colour', {expected}; {boxes}"));
    assert_eq!(far[1..], [format!("a.txt: no line for \"Priority, controller 0\"{MISSING}")]);
}

/// Each name with a letter left out is nearest to the name.
#[test]
fn a_letter_less_is_found() {
    for (place, name) in BoxName::all().map(|name| name.to_string()).enumerate() {
        for at in 0..name.len() - 1 {
            let less = format!("{}{}", &name[..at], &name[at + 1..]);
            let all = said(TEXT.replace(&name, &less));
            assert_eq!(all.len(), 1, "{all:?}");
            let start = format!("a.txt, line {}: '{}', ", place + 1, less.trim());
            let end = format!("; the nearest is \"{name}\"");
            assert!(all[0].starts_with(&start) && all[0].ends_with(&end), "{all:?}");
        }
    }
}

/// A line that is missing, that is there twice, or that has no colon. None is taken for an empty box.
#[test]
fn each_box_has_one_line() {
    let lines: Vec<&str> = TEXT.lines().collect();
    for (place, name) in BoxName::all().enumerate() {
        let mut less = lines.clone();
        less.remove(place);
        assert_eq!(said(less.join("\n")), [format!("a.txt: no line for \"{name}\"{MISSING}")]);
        let twice = format!("a.txt, line 7: '{name}' is there twice, on line {} too", place + 1);
        assert_eq!(said(format!("{TEXT}{}", lines[place])), [twice]);
        let bare = lines[place].replace(':', "");
        let shown = if bare.len() > 40 { format!("{}...", &bare[..40]) } else { bare.clone() };
        let colon = format!("'{shown}', expected a colon and a value after \"{name}\"");
        let text = TEXT.replacen(lines[place], &bare, 1);
        assert_eq!(said(text), [format!("a.txt, line {}: {colon}", place + 1)]);
    }
    let none = said("# nothing yet\n\n");
    assert_eq!(none.len(), 1);
    assert!(BoxName::all().all(|name| none[0].contains(&format!("\"{name}\""))), "{none:?}");
}

/// All typing errors are told, each with its line; of very many the first ten, and of another kind of text
/// one.
#[test]
fn all_typing_errors_are_told() {
    let text = "Downstream reserve, ms, controller 0: 0\nDownstream reserve, ms, controler 1: 20\n\n\
                Priority, controller 0: yes\nPriority, controller 0: 1\nIdle timer, controller 1 1\n";
    let all = said(text);
    let starts = [
        "a.txt, line 1: '0', ",
        "a.txt, line 2: 'Downstream reserve, ms, controler 1', ",
        "a.txt, line 4: 'yes', ",
        "a.txt, line 5: 'Priority, controller 0' is there twice, on line 4 too",
        "a.txt, line 6: 'Idle timer, controller 1 1', ",
        "a.txt: no line for \"Priority, controller 1\" and \"Idle timer, controller 0\"; ",
    ];
    assert_eq!(all.len(), starts.len(), "{all:?}");
    assert!(all.iter().zip(starts).all(|(line, start)| line.starts_with(start)), "{all:?}");
    let many = said(format!("{TEXT}{}", "Priority, controller 1: 0\n".repeat(25)));
    assert_eq!((many.len(), many[10].as_str()), (11, "a.txt: and 15 more"));
    let other = said("pins 0 0 0 1\npart PCA9641\ntick\ntick\n");
    assert_eq!(other.len(), 1);
    assert!(
        other[0].starts_with("a.txt, line 1: 'pins 0 0 0 1', expected the name of a box and a ")
    );
}

/// What is no text at all, or has what nobody can see. Any bytes do no harm.
#[test]
fn what_is_no_text_is_told() {
    let with = |bytes: &[u8]| [b"# one\n", bytes, b"\n", TEXT.as_bytes()].concat();
    let hidden = [
        '\0', '\u{7}', '\u{B}', '\u{1B}', '\u{7F}', '\u{85}', '\u{AD}', '\u{200B}', '\u{202E}',
        '\u{2028}', '\u{2066}', '\u{FEFF}',
    ];
    for letter in hidden {
        let place = format!("a.txt, line 2: '{}', ", letter.escape_unicode());
        let expected = [format!("{place}expected no hidden character")];
        assert_eq!(said(with(format!("# a{letter}b").as_bytes())), expected);
        assert_eq!(said(with(letter.to_string().as_bytes())), expected);
    }
    let lone = "a.txt, line 2: '\\u{d}', expected no hidden character";
    assert_eq!(said(with(b"a\rb")), [lone]);
    assert_eq!(said(with(b"50 \xB5s")), ["a.txt, line 2: the byte B5h is no text"]);
    let wide = "a.txt: no plain text, but UTF-16: save it as UTF-8";
    assert_eq!(
        (said(b"\xFF\xFED\0o\0"), said(b"\xFE\xFF\0D")),
        (vec![wide.into()], vec![wide.into()])
    );
    let mut rng = Rng::new(35);
    for _ in 0..3000 {
        let noise: Vec<u8> = (0..rng.below(200)).map(|_| rng.byte()).collect();
        said(noise);
    }
}

/// A sheet is no text, and a text has its most.
#[test]
fn sheets_and_long_texts_are_told() {
    let sheet = sheet_of([Some(50), Some(0), Some(0), None, None, Some(1)]);
    let already = "a.txt: it is a sheet already, and no text; gunwaleish sheet shows it as text";
    assert_eq!(said(sheet), [already]);
    let padded = |length: usize| [TEXT.as_bytes(), &vec![b'#'; length - TEXT.len()]].concat();
    let long = "a.txt: it is longer than 64 KiB, and a sheet has six lines";
    assert_eq!(said(padded(MOST_TEXT + 1)), [long]);
    let made = fill(&Input { name: String::new(), bytes: padded(MOST_TEXT) });
    assert_eq!(made.output, Some(sheet.to_vec()));
}
