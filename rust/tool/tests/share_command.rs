//! `gunwaleish share` as people call it: the page's commands with what they say, exit codes, files that
//! cannot be read, streams, rows for other programs, and where the report goes.

mod common;
#[path = "common/rows.rs"]
mod rows;

use std::fs;
use std::io::Write;
use std::process::{Command, Output, Stdio};

use common::{code, root, said, shell, text, told, Folder, BUILT, TOOL};

use model::report::input_of;

const EMPTY: &str = "traces/box14-rt00.trace";
const FILLED: &str = "traces/box14-rt50.trace";

/// Runs the tool at the repository's root.
fn run(arguments: &[&str]) -> Output {
    Command::new(TOOL).arg("share").args(arguments).current_dir(root()).output().unwrap()
}

/// Runs the tool with this on standard input.
fn piped(arguments: &[&str], input: &[u8]) -> Output {
    let mut command = Command::new(TOOL);
    command.arg("share").args(arguments).stdin(Stdio::piped());
    let mut child = command.stdout(Stdio::piped()).stderr(Stdio::piped()).spawn().unwrap();
    child.stdin.take().unwrap().write_all(input).unwrap();
    child.wait_with_output().unwrap()
}

/// Each command of the page in its order, and where the page has its words below it, word for word. What
/// goes to build/ goes to a folder of the test's own.
#[test]
fn the_commands_say_what_the_page_has() {
    let folder = Folder::new("share-page");
    let page = text("docs/SHARE.md");
    let command = format!("\n    {BUILT} share ");
    let mut ran = 0;
    for part in page.split(&command).skip(1) {
        let (line, rest) = part.split_once('\n').unwrap_or((part, ""));
        let line = line.replace(" build/", &format!(" {}/", folder.name()));
        let output = shell(&format!("{{ {BUILT} share {line}; }} 2>&1"));
        assert_eq!(code(&output), 0, "{line}");
        let Some(rest) = rest.strip_prefix("\n```\n") else { continue };
        let (expected, _) = rest.split_once("```\n").unwrap();
        assert!(told(&output) == expected, "docs/SHARE.md: share {line} says\n{}", told(&output));
        ran += 1;
    }
    assert_eq!(ran, 7);
}

/// Where GNU parallel is installed: the page's command with job slots gives the totals of one process.
#[test]
fn parallel_gives_the_totals_of_one_process() {
    let page = text("docs/SHARE.md");
    let line = page.lines().find(|line| line.starts_with("    parallel -j 2 ")).unwrap();
    if Command::new("parallel").arg("--version").output().is_err() {
        return println!("skipped: GNU parallel is not installed");
    }
    let folder = Folder::new("share-parallel");
    fs::create_dir(folder.path("totals")).unwrap();
    let line = line.replace(" build/totals", &format!(" {}/totals", folder.name()));
    let output = shell(&line.replace(" build/parallel.txt", &format!(" {}/out", folder.name())));
    let whole = shell(&format!("{BUILT} share traces/box14-*.trace"));
    assert_eq!((code(&output), told(&output)), (0, told(&whole)), "{}", said(&output));
    assert_eq!(fs::read_dir(folder.path("totals")).unwrap().count(), 4);
}

/// The tasks of the page's Slurm job, one after the other: their totals joined are those of one process.
#[cfg(unix)]
#[test]
fn an_array_job_gives_the_totals_of_one_process() {
    let page = text("docs/SHARE.md");
    let (_, script) = page.split_once("\n```bash\n").unwrap();
    let (script, _) = script.split_once("```\n").unwrap();
    let folder = Folder::new("share-slurm");
    fs::write(folder.path("share.sbatch"), script).unwrap();
    fs::create_dir(folder.path("totals")).unwrap();
    fs::create_dir(folder.path("bin")).unwrap();
    std::os::unix::fs::symlink(TOOL, folder.path("bin/gunwaleish")).unwrap();
    let names = ["box14-rt00", "box14-rt50", "pair", "hung-bus", "m1", "recovery", "refused-cut"];
    for (place, name) in names.iter().enumerate() {
        let inside = folder.path(&format!("night/{}", place % 5));
        fs::create_dir_all(&inside).unwrap();
        let trace = format!("traces/{name}.trace");
        fs::copy(root().join(trace), format!("{inside}/{name}.trace")).unwrap();
    }
    let path = format!("{}:{}", folder.path("bin"), std::env::var("PATH").unwrap());
    for task in ["0", "1", "2"] {
        let mut job = Command::new("bash");
        job.arg("share.sbatch").current_dir(&folder.0).env("PATH", &path);
        job.env("SLURM_ARRAY_TASK_ID", task).env("SLURM_ARRAY_TASK_COUNT", "3");
        let output = job.env("SLURM_CPUS_PER_TASK", "2").output().unwrap();
        assert_eq!(code(&output), 0, "{}", said(&output));
    }
    let parts = Folder(folder.0.join("totals"));
    let files: Vec<String> = parts.files().iter().map(|name| parts.path(name)).collect();
    assert_eq!(files.len(), 5);
    let files: Vec<&str> = files.iter().map(String::as_str).collect();
    let joined = run(&[&["--join"], &files[..]].concat());
    let whole = run(&[&folder.path("night")]);
    assert_eq!((code(&joined), told(&joined)), (0, told(&whole)));
}

/// The shares of box 14 are the model's figures too.
#[test]
fn the_page_has_the_shares_of_box_14() {
    let page = text("docs/SHARE.md");
    for name in ["rt00", "rt50", "idle", "idle-tpt29641"] {
        let path = format!("traces/box14-{name}.trace");
        let trace = fs::read(root().join(&path)).unwrap();
        let lines = model::share_report(&input_of(&[trace]));
        let part = format!("\n    {BUILT} share {path}\n\n```\n{lines}```\n");
        assert!(page.contains(&part), "docs/SHARE.md: {part}");
        let output = run(&[&path]);
        assert_eq!((code(&output), told(&output), said(&output)), (0, lines, String::new()));
    }
}

/// The stored input of the report program, as a file and as standard input.
#[test]
fn the_report_programs_input_gives_its_output() {
    let expected = text("crates/report/stdout");
    let page = text("docs/SHARE.md");
    for line in ["--stream crates/report/stdin", "--stream - < crates/report/stdin"] {
        let line = format!("    {BUILT} share {line}\n");
        assert!(page.contains(&line), "{line}");
        let output = shell(&line);
        assert_eq!((code(&output), told(&output)), (0, expected.clone()));
        assert!(said(&output).contains(", trace 3: refusal 5: cut"), "{}", said(&output));
    }
}

/// `-` is one trace, as everywhere; a stream is asked for.
#[test]
fn standard_input_is_one_trace() {
    let trace = fs::read(root().join(FILLED)).unwrap();
    let alone = piped(&["-"], &trace);
    let expected = (0, "0 49 49 0\n1 50 50 49\n".to_string(), String::new());
    assert_eq!((code(&alone), told(&alone), said(&alone)), expected);
    let path = root().join(FILLED);
    let both = piped(&["-", path.to_str().unwrap()], &trace);
    assert_eq!((code(&both), told(&both).as_str()), (0, "0 98 98 0\n1 100 100 98\n"));
    // A stream where a trace is wanted, and a trace where a stream is.
    let stream = piped(&["-"], &input_of(&[trace.clone(), trace.clone()]));
    assert_eq!((code(&stream), told(&stream).as_str()), (1, "0 0 0 0\n1 0 0 0\n"));
    let why = said(&stream);
    assert!(why.contains("looks like a stream of traces: gunwaleish share --stream counts it\n"));
    assert!(why.ends_with("gunwaleish: no figures: the one trace is refused\n"), "{why}");
    let wrong = piped(&["--stream", "-"], &trace);
    assert_eq!(code(&wrong), 1);
    let why = said(&wrong);
    assert!(
        why.ends_with("; it looks like a trace: one trace is counted without --stream\n"),
        "{why}"
    );
}

/// No trace at all, or refused ones alone, is no success; one that is taken is enough.
#[test]
fn without_a_trace_it_is_1() {
    let cut = "traces/refused-cut.trace";
    let both = run(&[cut, "traces/refused-strap.trace"]);
    assert_eq!((code(&both), told(&both).as_str()), (1, "0 0 0 0\n1 0 0 0\n"));
    assert!(said(&both).ends_with("gunwaleish: no figures: all 2 traces are refused\n"));
    let table = run(&[cut, "--table"]);
    assert_eq!((code(&table), told(&table).is_empty()), (1, false));
    assert_eq!(code(&run(&[cut, EMPTY])), 0);
    let stream = piped(&["--stream", "-"], &[]);
    assert_eq!(code(&stream), 1);
    assert!(
        said(&stream).ends_with("gunwaleish: there is no trace; it is empty\n"),
        "{}",
        said(&stream)
    );
    let none = run(&["sheets"]);
    assert_eq!(code(&none), 1);
    assert!(said(&none).contains("gunwaleish: sheets: no trace; skipped: "), "{}", said(&none));
    // A folder without one is told also beside a trace that is counted.
    let one = run(&["sheets", FILLED]);
    assert_eq!((code(&one), told(&one).as_str()), (1, "0 49 49 0\n1 50 50 49\n"));
}

/// A row a trace and one for all, with the traces of the longest waits, as CSV and as JSON.
#[test]
fn a_row_a_trace_and_one_for_all() {
    let cut = "traces/refused-cut.trace";
    let paths = [FILLED, cut, EMPTY];
    let output = run(&[&paths[..], &["--csv"]].concat());
    assert_eq!(code(&output), 0);
    assert!(said(&output).contains("refusal 5"), "{}", said(&output));
    let table = rows::csv(&told(&output));
    let column = |name| rows::column(&table, name);
    assert_eq!(column("of"), ["trace", "trace", "trace", "all"]);
    assert_eq!(column("name"), [FILLED, cut, EMPTY, ""]);
    assert_eq!(column("refusal"), ["", "5", "", ""]);
    assert_eq!(column("traces"), ["1", "1", "1", "3"]);
    assert_eq!(column("refused5"), ["0", "1", "0", "1"]);
    assert_eq!(column("owned0"), ["49", "0", "300", "349"]);
    assert_eq!(column("waited1"), ["49", "0", "300", "349"]);
    assert_eq!(column("longest1"), ["49", "0", "300", "300"]);
    assert_eq!(column("longest1_in"), ["", "", "", EMPTY]);
    assert_eq!(column("longest0_in"), [""; 4]);
    let lines = rows::json_lines(&told(&run(&[&paths[..], &["--json"]].concat())));
    assert_eq!(lines.len(), 4);
    for (place, name) in table[0].iter().enumerate() {
        for (line, row) in lines.iter().zip(&table[1..]) {
            let shown = match line.at(name) {
                rows::Read::Null => String::new(),
                rows::Read::Number(number) => number.to_string(),
                other => other.text().to_string(),
            };
            assert_eq!(shown, row[place], "{name}");
        }
    }
    let shown = told(&run(&[&paths[..], &["--table"]].concat()));
    assert!(shown.contains("           300  in traces/box14-rt00.trace\n"), "{shown}");
}

/// Totals of any parts, joined in any order, give the report of one process.
#[test]
fn totals_are_joined() {
    let folder = Folder::new("share-totals");
    let cut = "traces/refused-cut.trace";
    let traces = [FILLED, EMPTY, cut, "traces/pair.trace", "traces/hung-bus.trace", FILLED];
    let name = |place: usize| folder.path(&format!("{place}.totals"));
    for (place, part) in [&traces[..1], &traces[1..4], &traces[4..]].iter().enumerate() {
        let output = run(&[part, &["--totals", &name(place)][..]].concat());
        assert_eq!((code(&output), told(&output)), (0, told(&run(part))));
    }
    let whole = run(&[&traces[..], &["--totals", &folder.path("whole")]].concat());
    for order in [[0, 1, 2], [2, 0, 1], [1, 2, 0]] {
        let files = order.map(name);
        let files = files.each_ref().map(String::as_str);
        let joined =
            run(&[&["--join"], &files[..], &["--totals", &folder.path("joined")]].concat());
        assert_eq!((code(&joined), told(&joined)), (0, told(&whole)));
        let kept = ["whole", "joined"].map(|name| fs::read(folder.path(name)).unwrap());
        assert_eq!(kept[0], kept[1]);
        // The refused ones are told by their number, without a name.
        assert_eq!(
            said(&joined),
            "gunwaleish: refusal 5: cut: bytes are missing at the end: 1 trace\n"
        );
    }
    let table = |names: &[&str]| told(&run(&[names, &["--table"]].concat()));
    let (one, many) = (table(&traces), table(&["--join", &name(0), &name(1), &name(2)]));
    assert_eq!(one.lines().next(), many.lines().next());
    assert!(
        many.ends_with("\n\nrefusal 5: cut: bytes are missing at the end: 1 trace\n"),
        "{many}"
    );
    let rows = rows::csv(&told(&run(&["--join", &name(0), &name(1), "--csv"])));
    assert_eq!(rows::column(&rows, "of"), ["all"]);
}

/// Totals that cannot be written are told, and the report is there all the same.
#[test]
fn a_count_is_not_lost_for_its_totals() {
    let lost = run(&[FILLED, "--totals", "no-such-folder/a.totals"]);
    assert_eq!((code(&lost), told(&lost).as_str()), (2, "0 49 49 0\n1 50 50 49\n"));
    assert!(said(&lost).starts_with("gunwaleish: no-such-folder/a.totals cannot be written: "));
    let both = run(&["traces/refused-cut.trace", "--totals", "no-such-folder/a.totals"]);
    let lines: Vec<String> = said(&both).lines().map(String::from).collect();
    assert_eq!((code(&both), lines.len()), (2, 3), "{lines:?}");
    // And the other way round.
    let folder = Folder::new("share-kept");
    let kept = folder.path("a.totals");
    let lost = run(&[FILLED, "--totals", &kept, "-o", "no-such-folder/a.txt"]);
    assert_eq!((code(&lost), fs::exists(&kept).unwrap()), (2, true));
}

/// Of files that are no totals, or totals of too many traces, nothing is joined.
#[test]
fn what_cannot_be_joined_is_told() {
    let folder = Folder::new("share-join");
    let good = folder.path("good.totals");
    assert_eq!(code(&run(&[FILLED, "--totals", &good])), 0);
    let join = |names: &[&str]| run(&[&["--join"], names].concat());
    let output = join(&[&good, FILLED, "no-such.totals"]);
    assert_eq!((code(&output), told(&output)), (2, String::new()));
    let lines: Vec<String> = said(&output).lines().map(String::from).collect();
    assert!(lines[0]
        .contains("it does not begin with the line gunwaleish totals 1; it looks like a trace"));
    assert!(lines[1].contains("no-such.totals cannot be read: "), "{lines:?}");
    assert_eq!(lines[2], "gunwaleish: nothing is joined");
    assert_eq!(code(&join(&[&good, FILLED])), 1);
    // 32,768 traces and as many again are one too many.
    let text = fs::read_to_string(&good).unwrap();
    let half = text.replace("traces 1\n", "traces 32768\n").replace("refused5 0", "refused5 32767");
    let path = folder.path("half.totals");
    fs::write(&path, half).unwrap();
    let past = join(&[&path, &path]);
    assert_eq!((code(&past), told(&past)), (1, String::new()));
    assert!(
        said(&past).contains(": refusal 6: the totals are over 65,535 traces"),
        "{}",
        said(&past)
    );
    assert_eq!(code(&join(&[&path, &good])), 0);
    // More traces than are counted leave no totals behind.
    let filled = fs::read(root().join(FILLED)).unwrap();
    let kept = folder.path("past.totals");
    let past = piped(&["--stream", "-", "--totals", &kept], &input_of(&vec![filled; 65_536]));
    assert_eq!((code(&past), fs::exists(&kept).unwrap()), (1, false));
    assert!(said(&past).contains("is not written, since the totals are not of all traces\n"));
}

/// A file and a folder that cannot be read are told by their names, and nothing of the others is lost.
#[test]
fn what_cannot_be_read_is_told() {
    let whole = run(&[EMPTY, FILLED]);
    let output = run(&[EMPTY, "no-such.trace", FILLED, "no-such-folder"]);
    assert_eq!((code(&output), told(&output)), (2, told(&whole)));
    let lines: Vec<String> = said(&output).lines().map(String::from).collect();
    assert_eq!(lines.len(), 2);
    assert!(lines[0].starts_with("gunwaleish: no-such.trace cannot be read: "), "{lines:?}");
    assert!(lines[1].starts_with("gunwaleish: no-such-folder cannot be read: "), "{lines:?}");
    let stream = run(&["--stream", "no-such.stream"]);
    assert_eq!((code(&stream), told(&stream)), (2, String::new()));
    assert!(said(&stream).starts_with("gunwaleish: no-such.stream cannot be read: "));
    let folder = run(&["--stream", "traces"]);
    assert_eq!((code(&folder), told(&folder)), (2, String::new()));
}

/// Refused traces beside the two lines: the first of each number with its place, and how many more.
#[test]
fn refused_traces_are_told() {
    let cut = "traces/refused-cut.trace";
    let output = run(&[cut, EMPTY, "traces/refused-strap.trace", cut, cut]);
    assert_eq!((code(&output), told(&output)), (0, told(&run(&[EMPTY]))));
    let expected = "gunwaleish: traces/refused-cut.trace: refusal 5: cut: bytes are missing at the end \
                    (seen at byte 24) (and 2 traces more)\n\
                    gunwaleish: traces/refused-strap.trace: refusal 8: a pin code is above 3, or the \
                    strapping has no address (seen at byte 1)\n";
    assert_eq!(said(&output), expected);
    let table = told(&run(&[cut, EMPTY, cut, "--table"]));
    assert!(table.starts_with("3 traces: 1 taken, 2 refused; 300 ticks\n"), "{table}");
    let last = "\n\nrefusal 5: cut: bytes are missing at the end: 2 traces, the first traces/refused-cut.trace\n";
    assert!(table.ends_with(last), "{table}");
    let nothing = told(&run(&[cut, "--table"]));
    assert!(nothing.contains("\nnobody                0        -\n"), "{nothing}");
    let folder = Folder::new("share-old");
    let m1 = fs::read(root().join("traces/m1.trace")).unwrap();
    fs::write(folder.path("old.trace"), &m1[..m1.len() - 2]).unwrap();
    let old = run(&[&folder.path("old.trace")]);
    assert!(said(&old).contains("gunwaleish convert gives it PCA9641"), "{}", said(&old));
}

/// 65,535 traces are counted; with one more the two lines stay, and R6 follows.
#[test]
fn past_65_535_is_1() {
    let filled = fs::read(root().join(FILLED)).unwrap();
    let mut traces = vec![vec![]; 65_534];
    traces.push(filled.clone());
    let most = piped(&["--stream", "-"], &input_of(&traces));
    assert_eq!((code(&most), told(&most).as_str()), (0, "0 49 49 0\n1 50 50 49\n"));
    let shown =
        "gunwaleish: standard input, trace 1: refusal 5: cut: bytes are missing at the end (and \
                 65533 traces more)\n";
    assert_eq!(said(&most), shown);
    let why = "refusal 6: there are more than 65,535 traces, and ";
    for (more, not) in [(1, "1 trace is not counted\n"), (2, "2 traces are not counted\n")] {
        traces.push(filled.clone());
        for threads in ["1", "2", "5"] {
            let past = piped(&["--stream", "-", "--threads", threads], &input_of(&traces));
            assert_eq!((code(&past), told(&past).as_str()), (1, "0 49 49 0\n1 50 50 49\nR6\n"));
            assert_eq!(said(&past), format!("{shown}gunwaleish: {why}{not}"), "{more}");
        }
    }
    // The third one is cut, and none the less one trace.
    let mut input = input_of(&traces);
    input.push(1);
    let table = piped(&["--stream", "-", "--table"], &input);
    let line = format!("{why}3 traces are not counted\n");
    assert_eq!((code(&table), said(&table)), (1, format!("gunwaleish: {line}")));
    assert!(told(&table).ends_with(&line), "{}", told(&table));
}

#[test]
fn wrong_use_is_2() {
    let cases: [(&[&str], &str); 18] = [
        (&[], "share needs a trace or a folder of traces"),
        (&["--stream"], "share needs a trace"),
        (&["--stream", EMPTY, FILLED], "--stream needs one file, and has 2"),
        (&["-", EMPTY, "-"], "standard input is there twice"),
        (&["--join"], "--join needs files that --totals wrote"),
        (&["--join", "--stream", EMPTY], "--stream and --join are both there"),
        (&[EMPTY, "--csv", "--json"], "--csv and --json are both there"),
        (&[EMPTY, "--csv", "--table"], "--table is for people, and --csv or --json is there"),
        (&[EMPTY, "--totals", "-"], "--totals needs the name of a file"),
        (&[EMPTY, "--totals", "out", "-o", "out"], "--totals and -o name the same file"),
        (&[EMPTY, "--totals", EMPTY], "box14-rt00.trace is an input, and is not written over"),
        (&["traces", "--totals", EMPTY], "box14-rt00.trace is an input, and is not written over"),
        (&["--join", EMPTY, "--totals", EMPTY], "is an input, and is not written over"),
        (&[EMPTY, "--threads", "0"], "--threads needs a number of at least 1, 256 at the most"),
        (&[EMPTY, "--threads", "many"], "at the most, and has 'many'"),
        (&[EMPTY, "--threads"], "--threads needs a number of at least 1; gunwaleish share"),
        (&[EMPTY, "-o", EMPTY], "box14-rt00.trace is an input, and is not written over"),
        (&["traces", "-o", EMPTY], "box14-rt00.trace is an input, and is not written over"),
    ];
    for (arguments, expected) in cases {
        let output = run(arguments);
        assert_eq!((code(&output), output.stdout.len()), (2, 0), "{arguments:?}");
        assert!(said(&output).contains(expected), "{arguments:?}: {}", said(&output));
    }
}

/// Into a file, or into a folder under the first name; an empty folder has no ticks.
#[test]
fn the_report_goes_where_it_should() {
    let folder = Folder::new("share-out");
    let to = folder.path("");
    let lines = told(&run(&["traces"]));
    let output = run(&["traces", FILLED, "-o", &to]);
    assert_eq!((code(&output), output.stdout.len()), (0, 0), "{}", said(&output));
    assert!(fs::read_to_string(folder.path("traces.txt")).is_ok_and(|found| found != lines));
    let output = run(&["traces", "-o", &folder.path("share")]);
    assert_eq!((code(&output), output.stdout.len()), (0, 0), "{}", said(&output));
    assert_eq!(fs::read_to_string(folder.path("share")).unwrap(), lines);
    let none = run(&[&to]);
    assert_eq!((code(&none), told(&none).as_str()), (1, "0 0 0 0\n1 0 0 0\n"));
    assert!(said(&none).contains(": no trace; skipped: 2 files that do not end in .trace\n"));
    let output = run(&["traces", "--csv", "-o", &to]);
    assert_eq!((code(&output), output.stdout.len()), (0, 0), "{}", said(&output));
    assert!(fs::read_to_string(folder.path("traces.csv")).is_ok_and(|text| text.starts_with("of,")));
}
