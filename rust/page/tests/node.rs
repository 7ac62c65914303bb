//! The module out of the kept page, in node: it answers as the same code on this machine does, byte for byte, on every sample. Where there is no
//! node, that is told in a line.

mod common;

use std::process::Command;
use std::{env, fs, process};

use common::{at_root, file, files};
use gunwaleish_page::fields::join;

/// Every request that is compared.
fn requests() -> Vec<Vec<u8>> {
    let mut all: Vec<Vec<u8>> = vec![];
    let mut ask = |fields: &[&[u8]]| all.push(join(fields));
    for request in ["boxes", "words", "samples"] {
        ask(&[request.as_bytes()]);
    }
    of_each_file(&mut ask);
    of_sheets(&mut ask);
    of_scripts(&mut ask);
    of_many(&mut ask);
    all
}

/// What every sample is, and what is made of it.
fn of_each_file(ask: &mut impl FnMut(&[&[u8]])) {
    let everything = ["traces", "sheets", "releases"].iter().flat_map(|folder| files(folder, ""));
    for name in everything.collect::<Vec<_>>() {
        let bytes = file(&name);
        ask(&[b"what", name.as_bytes(), &bytes]);
        let kinds: &[&str] = match name.rsplit_once('.').map_or("", |(_, ending)| ending) {
            "trace" => {
                &["script", "listing", "explain", "story", "picture", "vcd", "states", "convert"]
            }
            "script" => &["compose"],
            "sheet" => &["sheet_text"],
            "txt" => &["fill"],
            _ => &[],
        };
        for kind in kinds {
            ask(&[kind.as_bytes(), &bytes, name.as_bytes()]);
        }
    }
    let trace = file("traces/mail.trace");
    for event in 0..30 {
        ask(&[b"state", &trace, event.to_string().as_bytes()]);
    }
    let capture = file("traces/box14.capture");
    for address in ["71", "70", "x"] {
        ask(&[b"import", &capture, address.as_bytes(), b"PCA9641"]);
    }
}

/// Every two sheets.
fn of_sheets(ask: &mut impl FnMut(&[&[u8]])) {
    let sheets: Vec<Vec<u8>> = files("sheets", ".sheet").iter().map(|name| file(name)).collect();
    for (board, house) in
        sheets.iter().flat_map(|board| sheets.iter().map(move |house| (board, house)))
    {
        ask(&[b"sheet", board, house]);
        ask(&[b"start", board, house, b"71", b"PCA9641"]);
    }
}

/// Scripts over a shelf, in all orders, and beside a trace.
fn of_scripts(ask: &mut impl FnMut(&[&[u8]])) {
    let [shelf, hang, typo] = ["chassis.shelf", "hang.script", "typo.script"]
        .map(|name| file(&format!("traces/shelf/{name}")));
    ask(&[b"shelf", &shelf, &hang]);
    ask(&[b"shelf", &shelf, &typo]);
    let [first, second, third] = ["start0", "start1", "start1-no-last-stop"]
        .map(|name| file(&format!("traces/orders/{name}.script")));
    ask(&[b"orders", &first, &second]);
    ask(&[b"orders", &first, &third, b"", b"", b"TPT29641"]);
    ask(&[b"diff", &file("traces/box14-rt00.trace"), b"", &file("traces/box14-rt50.script"), b""]);
}

/// Requests with many files: the bus share, and the releases.
fn of_many(ask: &mut impl FnMut(&[&[u8]])) {
    let traces = files("traces", ".trace");
    let bytes: Vec<Vec<u8>> = traces.iter().map(|name| file(name)).collect();
    let pairs = traces.iter().zip(&bytes).flat_map(|(name, trace)| [name.as_bytes(), trace]);
    ask(&[&b"share"[..]].into_iter().chain(pairs).collect::<Vec<_>>());
    for verdict in files("releases", "verdict.txt") {
        let folder = verdict.strip_suffix("/verdict.txt").unwrap();
        let names = files(folder, "");
        let bytes: Vec<Vec<u8>> = names.iter().map(|name| file(name)).collect();
        let pairs = names.iter().zip(&bytes).flat_map(|(name, bytes)| [name.as_bytes(), bytes]);
        let head: [&[u8]; 3] = [b"release", b"--folder", folder.as_bytes()];
        ask(&head.into_iter().chain(pairs).collect::<Vec<_>>());
    }
}

#[test]
fn the_module_answers_the_same() {
    let root = at_root();
    if !root.join("gunwaleish.html").is_file() {
        // kept.rs tells that it is missing.
        return println!("gunwaleish.html is not there, so its module is not asked");
    }
    if Command::new("node").arg("--version").output().is_err() {
        return println!("node is not there, so the module of gunwaleish.html is not asked");
    }
    let cases = env::temp_dir().join(format!("page-{}.cases", process::id()));
    let pairs = requests().into_iter().flat_map(|request| {
        let answer = gunwaleish_page::ask(&request);
        [request, answer]
    });
    fs::write(&cases, join(pairs)).unwrap();
    let mut node = Command::new("node");
    let ran =
        node.args(["rust/page/tests/node.mjs", "gunwaleish.html"]).arg(&cases).output().unwrap();
    fs::remove_file(&cases).unwrap();
    let [said, wrong] =
        [&ran.stdout, &ran.stderr].map(|bytes| String::from_utf8_lossy(bytes).into_owned());
    println!("{said}");
    assert!(ran.status.success(), "{said}{wrong}");
}
