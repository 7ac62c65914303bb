//! Every answer is what the tool prints, on every sample: the tool's own command line is run, and what it writes is compared.

mod common;

use std::process::Command;
use std::sync::atomic::{AtomicUsize, Ordering};
use std::time::UNIX_EPOCH;
use std::{env, fs, process};

use common::{ask, at_root, done, file, files, same};

const WORDS: &str = "THE_TOOLS_WORDS";

/// What became of a command line.
struct Ran {
    /// What it wrote to its file.
    made: Option<Vec<u8>>,
    done: bool,
    printed: String,
    /// What it said on standard error.
    said: String,
}

/// The tool itself, with the words of a command line: this program, run again.
fn tool(words: &[&str]) -> Ran {
    static NEXT: AtomicUsize = AtomicUsize::new(0);
    let name = format!("page-{}-{}", process::id(), NEXT.fetch_add(1, Ordering::Relaxed));
    let to = env::temp_dir().join(name);
    let words = [words, &["-o", to.to_str().unwrap()]].concat().join("\n");
    let mut again = Command::new(env::current_exe().unwrap());
    let ran = again.args(["--ignored", "--exact", "the_tool", "--nocapture"]).env(WORDS, &words);
    let ran = ran.output().unwrap();
    let made = fs::read(&to).ok();
    let _ = fs::remove_file(&to);
    let text = |bytes: &[u8]| String::from_utf8_lossy(bytes).into_owned();
    let printed = text(&ran.stdout);
    let (_, printed) = printed.split_once("running 1 test\n").expect("the tool is run as a test");
    Ran { made, done: ran.status.success(), printed: printed.to_string(), said: text(&ran.stderr) }
}

#[test]
#[ignore = "the other tests run it, each with a command line"]
fn the_tool() {
    let words = env::var(WORDS).expect("the words of a command line");
    let code = gunwaleish_tool::main(words.split('\n').map(Into::into).collect());
    process::exit(i32::from(code != process::ExitCode::SUCCESS));
}

/// What a command writes that is done.
fn made(words: &[&str]) -> Vec<u8> {
    let ran = tool(words);
    assert!(ran.done, "{words:?}: {}", ran.said);
    ran.made.unwrap()
}

/// What the tool says when it refuses, without its own name.
fn refusal(words: &[&str]) -> String {
    let ran = tool(words);
    assert!(!ran.done, "{words:?}");
    let lines: Vec<&str> =
        ran.said.lines().filter_map(|line| line.strip_prefix("gunwaleish: ")).collect();
    lines.join("\n")
}

#[test]
fn traces() {
    at_root();
    let all = files("traces", ".trace");
    assert!(all.len() >= 15, "{all:?}");
    for name in &all {
        let (trace, title) = (file(name), name.as_bytes());
        let refused = name.contains("refused");
        let listed = ask("listing", &[&trace, title]);
        assert_eq!(listed.ok, !refused, "{name}");
        let listing = if refused { &listed.fields[2] } else { &listed.fields[0] };
        same(name, listing, &file(&name.replace(".trace", ".listing")));
        if refused {
            let why = refusal(&["explain", name]);
            assert_eq!(ask("explain", &[&trace, title]).text(0), why);
            assert_eq!(
                ask("explain", &[&trace]).text(0),
                why.strip_prefix(&format!("{name}: ")).unwrap()
            );
            continue;
        }
        let one = |request: &str, more: &[&[u8]]| {
            done(request, &[&[&trace[..]], more].concat()).fields.remove(0)
        };
        same(name, &one("explain", &[title]), &made(&["explain", name]));
        same(name, &one("script", &[title]), &made(&["decompose", name]));
        same(name, &one("vcd", &[title]), &made(&["wave", name]));
        same(name, &one("picture", &[title]), &made(&["picture", name]));
        same(name, &one("rows", &[b"csv", title]), &made(&["explain", name, "--csv"]));
        same(name, &one("rows", &[b"json", title]), &made(&["explain", name, "--json"]));
        let (old, mut new) = (&trace[..trace.len() - 2], trace.clone());
        *new.last_mut().unwrap() = 0;
        same(name, &done("convert", &[old, title]).fields[0], &new);
        assert_eq!(ask("convert", &[&trace, title]).text(0), refusal(&["convert", name]));
    }
}

#[test]
fn a_part_of_a_picture() {
    at_root();
    let part = made(&["picture", "traces/recovery.trace", "--from", "300", "--to", "310"]);
    let recovery = file("traces/recovery.trace");
    same(
        "a part",
        &done("picture", &[&recovery, b"traces/recovery.trace", b"300", b"310"]).fields[0],
        &part,
    );
}

#[test]
fn scripts() {
    at_root();
    for name in files("traces", ".script") {
        let text = file(&name);
        let answer = ask("compose", &[&text, name.as_bytes()]);
        let ran = tool(&["compose", &name]);
        assert_eq!(answer.ok, ran.done, "{name}: {}", ran.said);
        match ran.made {
            Some(trace) => same(&name, &answer.fields[0], &trace),
            None => {
                assert_eq!(ran.said, format!("gunwaleish: {}\n", answer.text(0)));
                assert!(answer.text(0).contains(&format!(", line {}: ", answer.text(1))));
            }
        }
    }
    let answer =
        done("compose", &[b"pins 0 0 0 1\npart PCA9641\ncommand 0 03\nwrite 0 50\n\ntick 3\n"]);
    assert_eq!(
        answer.text(1),
        "line 4: warning: 50 is hex, so RT is 80 ms: write 80ms or 50h for that, or 50ms for 50 ms"
    );
    assert_eq!(answer.text(2), "[3,4,6,6,6]");
    let answer = ask("compose", &[b"pins 0 0 0 1\npart PCA9641\nwrite 2 50\n"]);
    assert_eq!(
        (answer.ok, answer.text(0), answer.text(1)),
        (false, "line 3: '2', expected a controller, 0 or 1", "3")
    );
}

/// Two runs laid side by side.
#[test]
fn differences() {
    at_root();
    let [a, b] = ["traces/box14-rt00.trace", "traces/box14-rt50.script"];
    let answer = done("diff", &[&file(a), a.as_bytes(), &file(b), b.as_bytes()]);
    let ran = tool(&["diff", a, b]);
    same("diff", &answer.fields[0], &ran.made.unwrap());
    assert_eq!((answer.text(1), ran.done), ("not alike", false));
    let same_one = done("diff", &[&file(b), b"", &file("traces/box14-rt50.trace"), b""]);
    assert_eq!(same_one.text(1), "alike");
}

#[test]
fn captures() {
    at_root();
    let name = "traces/box14.capture";
    let device = ["--address", "71", "--part", "PCA9641"];
    let answer = done("import", &[&file(name), b"71", b"PCA9641", name.as_bytes()]);
    same("trace", &answer.fields[0], &made(&[&["import", name][..], &device].concat()));
    same(
        "script",
        &answer.fields[2],
        &made(&[&["import", name, "--script"][..], &device].concat()),
    );
    assert!(
        answer.text(1).starts_with("traces/box14.capture: ") && answer.text(1).contains("samples"),
        "{}",
        answer.text(1)
    );
    for (address, part, why) in [
        ("", "PCA9641", "import needs the device: --address, or --pins"),
        ("71", "", "import needs the part: --part PCA9641 or --part TPT29641; a kind left out and read as a default is how the incident came about"),
        ("zz", "PCA9641", "'zz' is no byte in hex"),
    ] {
        let answer = ask("import", &[&file(name), address.as_bytes(), part.as_bytes()]);
        assert_eq!((answer.ok, answer.text(0)), (false, why));
    }
}

#[test]
fn sheets() {
    at_root();
    let all = files("sheets", ".sheet");
    assert!(all.len() >= 6, "{all:?}");
    for name in &all {
        same(
            name,
            &done("sheet_text", &[&file(name), name.as_bytes()]).fields[0],
            &made(&["sheet", name]),
        );
        let text = name.replace(".sheet", ".txt");
        same(name, &done("fill", &[&file(&text), text.as_bytes()]).fields[0], &file(name));
    }
}

#[test]
fn pairs_of_sheets() {
    at_root();
    let all = files("sheets", ".sheet");
    for (board, house) in all.iter().flat_map(|board| all.iter().map(move |house| (board, house))) {
        let names = [board.as_bytes(), house.as_bytes()];
        let answer = done("sheet", &[&file(board), &file(house), names[0], names[1]]);
        let Ran { made: text, done: complete, said, .. } = tool(&["sheet", board, house]);
        same(board, &answer.fields[0], &text.unwrap());
        assert_eq!(
            said,
            if complete { String::new() } else { format!("gunwaleish: {}\n", answer.text(2)) }
        );
        assert_eq!(answer.text(1).starts_with("{\"complete\":true"), complete, "{board} {house}");
        let start =
            ask("start", &[&file(board), &file(house), b"71", b"TPT29641", names[0], names[1]]);
        assert_eq!(start.ok, complete);
        if complete {
            let device = ["sheet", board, house, "--address", "71", "--part", "TPT29641"];
            let options: [&[&str]; 4] = [
                &[],
                &["--script"],
                &["--script", "--controller", "0"],
                &["--script", "--controller", "1"],
            ];
            for (field, options) in start.fields.iter().zip(options) {
                same(board, field, &made(&[&device[..], options].concat()));
            }
        }
    }
}

#[test]
fn sheets_that_are_refused() {
    at_root();
    let wrong = b"Downstream reserve, ms, controller 0: 0\nPrioriti, controller 1: 7\n";
    let text = env::temp_dir().join(format!("page-{}.txt", process::id()));
    fs::write(&text, wrong).unwrap();
    let name = text.to_str().unwrap();
    let answer = ask("fill", &[wrong, name.as_bytes()]);
    assert_eq!((answer.text(0), answer.text(1)), (refusal(&["fill", name]).as_str(), "1"));
    fs::remove_file(&text).unwrap();
    assert!(ask("fill", &[wrong]).text(0).lines().take(2).all(|line| line.starts_with("line ")));
    assert!(!ask("sheet", &[b"no sheet", &file("sheets/house.sheet")]).ok);
}

#[test]
fn shelves() {
    at_root();
    let shelf = "traces/shelf/chassis.shelf";
    for script in ["traces/shelf/hang.script", "traces/shelf/typo.script"] {
        let answer =
            ask("shelf", &[&file(shelf), &file(script), shelf.as_bytes(), script.as_bytes()]);
        let ran = tool(&["shelf", shelf, script]);
        assert_eq!(answer.ok, ran.done);
        if !ran.done {
            assert_eq!(ran.said, format!("gunwaleish: {}\n", answer.text(0)));
        }
        let results = if ran.done { &answer.fields[..] } else { &answer.fields[2..] };
        same(script, &results[0], &ran.made.unwrap());
        same(script, &results[1], &made(&["picture", "--shelf", shelf, script]));
        same(script, &results[2], &tool(&["shelf", shelf, script, "--list"]).made.unwrap());
    }
    let twice = ask(
        "shelf",
        &[&file("traces/shelf/twice.shelf"), &file("traces/shelf/hang.script"), b"twice.shelf"],
    );
    assert_eq!(
        twice.text(0),
        "twice.shelf, line 5: refusal 17: address 71h is there twice, on line 3 too"
    );
}

#[test]
fn orders() {
    at_root();
    let first = "traces/orders/start0.script";
    for second in ["traces/orders/start1.script", "traces/orders/start1-no-last-stop.script"] {
        let arguments = [&file(first)[..], &file(second), first.as_bytes(), second.as_bytes()];
        let answer = ask("orders", &arguments);
        let on_other = ask("orders", &[&arguments[..], &[b"TPT29641"]].concat());
        let words = ["orders", first, second, "--part", "TPT29641"];
        for (answer, ran) in [(answer, tool(&words[..3])), (on_other, tool(&words))] {
            assert_eq!(answer.ok, ran.done);
            same(second, &answer.fields[if ran.done { 0 } else { 2 }], &ran.made.unwrap());
            if !ran.done {
                assert_eq!(ran.said, format!("gunwaleish: {}\n", answer.text(0)));
            }
        }
    }
    let second = "traces/orders/start1.script";
    let order = done("order", &[&file(first), &file(second), b"", b"", b"", b"000011111001"]);
    let words = ["orders", first, second, "--order", "000011111001"];
    same("order", &order.fields[0], &made(&words));
    same("order", &order.fields[1], &made(&[&words[..], &["--script"]].concat()));
}

#[test]
fn shares() {
    at_root();
    let names: Vec<String> = files("traces", ".trace");
    let traces: Vec<Vec<u8>> = names.iter().map(|name| file(name)).collect();
    let pairs: Vec<&[u8]> =
        names.iter().zip(&traces).flat_map(|(name, trace)| [name.as_bytes(), trace]).collect();
    let answer = done("share", &pairs);
    let words: Vec<&str> = names.iter().map(String::as_str).collect();
    let with = |more: &[&'static str]| made(&[&["share"], &words[..], more].concat());
    same("lines", &answer.fields[0], &with(&[]));
    same("table", &answer.fields[1], &with(&["--table"]));
    same("picture", &answer.fields[2], &made(&[&["picture", "--share"], &words[..]].concat()));
    let said = tool(&[&["share"], &words[..]].concat()).said;
    assert_eq!(
        said,
        answer.text(3).lines().map(|line| format!("gunwaleish: {line}\n")).collect::<String>()
    );
    assert!(!ask("share", &[]).ok);
}

/// Every sample release, with the options of its page; the words are those that are kept beside it.
#[test]
fn releases() {
    at_root();
    let all = files("releases", "verdict.txt");
    assert!(all.len() >= 14, "{all:?}");
    for verdict in all {
        let folder = verdict.strip_suffix("/verdict.txt").unwrap();
        let options: &[&str] = match folder {
            "releases/on-purpose" | "releases/reasons/not-without-limit" => {
                &["--without-limit", "0"]
            }
            "releases/reasons/above-most" => &["--most", "40"],
            _ => &[],
        };
        // The tool's page has the moment at which it was made.
        let ran = tool(&[&["release", folder], options].concat());
        let page = String::from_utf8(ran.made.unwrap()).unwrap();
        let mut given: Vec<Vec<u8>> =
            files(folder, "").iter().flat_map(|name| with_time(name)).collect();
        given.extend(options.iter().map(|word| word.as_bytes().to_vec()));
        given.extend([b"--folder".to_vec(), folder.into()]);
        let given: Vec<&[u8]> = given.iter().map(Vec::as_slice).collect();
        let answer = done("release", &given);
        same(folder, &answer.fields[0], &file(&verdict));
        assert!(ran.printed.starts_with(answer.text(0)), "{}", ran.printed);
        assert_eq!(answer.text(1).starts_with("{\"released\":true"), ran.done);
        same(folder, without_moment(answer.text(2)).as_bytes(), without_moment(&page).as_bytes());
    }
}

/// A file of a bundle as it is given: its name, what it has, and when it was changed.
fn with_time(name: &str) -> [Vec<u8>; 4] {
    let changed = fs::metadata(name).unwrap().modified().unwrap();
    let seconds = changed.duration_since(UNIX_EPOCH).unwrap().as_secs().to_string();
    [name.into(), file(name), b"--changed".to_vec(), seconds.into_bytes()]
}

/// A page without the moment at which it was made.
fn without_moment(page: &str) -> String {
    let at = page.find("Page made").expect("the moment");
    let end = at + page[at..].find("UTC").expect("a time");
    format!("{}{}", &page[..at], &page[end..])
}

/// Names without a folder, and names in one: both are found, and what is missing is told.
#[test]
fn a_release_without_a_folder() {
    at_root();
    let [board, house] =
        ["board", "house"].map(|name| file(&format!("releases/incident/{name}.sheet")));
    let bare = done("release", &[b"board.sheet", &board, b"house.sheet", &house]);
    assert!(
        bare.text(0)
            .starts_with("Release of bundle\n\nfound      board sheet: bundle/board.sheet\n"),
        "{}",
        bare.text(0)
    );
    let inside = done("release", &[b"x/board.sheet", &board, b"x/house.sheet", &house]);
    assert_eq!(inside.text(0), bare.text(0).replace("bundle", "x"));
    let missing = ask("release", &[b"x/house.sheet", &house]);
    assert_eq!((missing.ok, missing.text(0)), (false, "x has no board.sheet; --board names another file; gunwaleish release --help tells more"));
    let wrong =
        ask("release", &[b"board.sheet", &board, b"house.sheet", &house, b"--most", b"soon"]);
    assert_eq!(
        wrong.text(0),
        "--most 'soon', expected a count of milliseconds; gunwaleish release --help tells more"
    );
}
