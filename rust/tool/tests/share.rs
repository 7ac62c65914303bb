//! The bus share report against the independent model: folders, streams, damaged traces, and more
//! traces than are counted; with one thread, two and five.

use std::error::Error;
use std::fs;
use std::io::{self, Read};
use std::path::PathBuf;
use std::slice::from_ref;

use gunwaleish::{Master, Totals};
use gunwaleish_tool::share::progress::Progress;
use gunwaleish_tool::share::stream::of_stream;
use gunwaleish_tool::share::{kept, of_files, words, Counted, MOST_TRACES};
use gunwaleish_tool::walk::find;
use gunwaleish_tool::{story, summary};
use model::report::{input_of, totals_of_input};
use model::rng::Rng;
use model::share::NUMBERS;
use model::shares::any_trace;

const THREADS: [usize; 3] = [1, 2, 5];

/// A folder of a test's own, taken away when the test is over.
struct Folder(PathBuf);

impl Folder {
    fn new(name: &str) -> Folder {
        let path = std::env::temp_dir().join(format!("gunwaleish-{name}-{}", std::process::id()));
        let _ = fs::remove_dir_all(&path);
        fs::create_dir_all(path.join("deep/deeper")).unwrap();
        Folder(path)
    }

    fn write(&self, name: &str, bytes: &[u8]) -> PathBuf {
        fs::write(self.0.join(name), bytes).unwrap();
        self.0.join(name)
    }
}

impl Drop for Folder {
    fn drop(&mut self) {
        let _ = fs::remove_dir_all(&self.0);
    }
}

/// The totals in a row, as the model has them.
fn numbers(totals: &Totals) -> [u64; NUMBERS] {
    let both = |figure: fn(&Totals, Master) -> u64| Master::BOTH.map(|m| figure(totals, m));
    let [owned0, owned1] = both(Totals::owned);
    let mut row = vec![totals.traces(), totals.ticks(), owned0, owned1, totals.unowned()];
    row.extend([both(Totals::connected), both(Totals::waited), both(Totals::longest)].concat());
    row.extend(model::share::REFUSALS.map(|number| totals.refused(number)));
    row.try_into().unwrap()
}

fn quiet() -> Progress {
    Progress::new(None)
}

fn files(paths: &[PathBuf], threads: usize) -> Counted {
    let (counted, unread) = of_files(paths, threads, &quiet()).unwrap();
    assert_eq!(unread, []);
    counted
}

fn stream(input: &[u8], threads: usize) -> Counted {
    of_stream(input, "input", threads, &quiet()).unwrap()
}

fn refused(counted: &Counted) -> Vec<(usize, u8)> {
    counted.refused.iter().map(|&(place, refusal)| (place, refusal.number())).collect()
}

/// Folders of any traces, some in folders of the folder, among other files.
#[test]
fn folders_have_the_models_totals() {
    let mut rng = Rng::new(112);
    for round in 0..25 {
        let folder = Folder::new(&format!("share-{round}"));
        let mut expected = model::Totals::default();
        let mut numbers_of = std::collections::BTreeMap::new();
        for place in 0..rng.between(0, 60) {
            let inside = rng.pick(&["", "", "deep/", "deep/deeper/"]);
            let trace = any_trace(&mut rng);
            let path = folder.write(&format!("{inside}{place}.trace"), &trace);
            numbers_of.insert(path, expected.add(&trace));
            folder.write(&format!("{inside}{place}.txt"), &trace);
        }
        let found = find(from_ref(&folder.0));
        assert_eq!((found.files.len(), found.unread.len()), (numbers_of.len(), 0));
        assert!(found.files.is_sorted());
        let numbered = found.files.iter().map(|path| numbers_of[path]).enumerate();
        let expected_refused: Vec<(usize, u8)> =
            numbered.filter(|&(_, number)| number > 0).collect();
        let mut shuffled = found.files.clone();
        (1..shuffled.len()).for_each(|at| shuffled.swap(at, rng.below(at as u64 + 1) as usize));
        for threads in THREADS {
            let counted = files(&found.files, threads);
            assert_eq!(numbers(&counted.totals), expected.numbers(), "round {round}");
            assert_eq!((refused(&counted), counted.past), (expected_refused.clone(), 0));
            assert_eq!(files(&shuffled, threads).totals, counted.totals, "round {round}");
        }
    }
}

/// What is skipped in a folder is told, and a file that is named is taken whatever its name.
#[test]
fn what_is_found_and_what_is_skipped() {
    let folder = Folder::new("share-found");
    let found = |names: &[PathBuf]| find(names);
    let shown = folder.0.display();
    // A folder without a trace is a failure, and says so itself.
    let none = found(from_ref(&folder.0));
    assert_eq!((none.files.len(), none.said.len(), none.unread.len()), (0, 0, 0));
    let failures: Vec<(String, u8)> = none.failures().map(|f| (f.text(), f.code())).collect();
    assert_eq!(failures, [(format!("{shown}: no trace"), 1)]);
    let names = ["b.trace", "a.trace", "deep/c.TRACE", "notes.txt", ".trace", "trace"];
    let paths = names.map(|name| folder.write(name, &[]));
    let all = found(&[paths[3].clone(), folder.0.clone(), paths[0].clone()]);
    let order = [3, 1, 0, 2, 0].map(|place: usize| paths[place].clone());
    assert_eq!(all.files, order);
    let said = format!("{shown}: 3 traces; skipped: 3 files that do not end in .trace");
    assert_eq!((all.said.as_slice(), all.failures().count()), (&[said][..], 0));
    #[cfg(unix)]
    {
        let link = |to: &str, name: &str| {
            std::os::unix::fs::symlink(folder.0.join(to), folder.0.join(name)).unwrap();
        };
        link("", "deep/circle");
        link("a.trace", "deep/again.trace");
        link("nowhere", "deep/lost.trace");
        let all = found(from_ref(&folder.0));
        assert_eq!(all.files.len(), 5);
        let (counted, unread) = of_files(&all.files, 2, &quiet()).unwrap();
        assert_eq!((counted.totals.traces(), unread.len()), (4, 1));
        assert!(all.said[0].ends_with("not end in .trace, 1 link to folders"), "{:?}", all.said);
    }
}

/// Each trace has its own totals, which add up to all; the longest wait is that of the first trace that
/// has it, whatever the threads.
#[test]
fn each_trace_has_its_own_totals() {
    let mut rng = Rng::new(37);
    for round in 0..20 {
        let traces: Vec<Vec<u8>> = (0..rng.below(40)).map(|_| any_trace(&mut rng)).collect();
        let input = input_of(&traces);
        for counted in THREADS.map(|threads| stream(&input, threads)) {
            assert_eq!(counted.each.len(), traces.len());
            let mut longest = [(0, None); 2];
            for (place, (at, own)) in counted.each.iter().enumerate() {
                let mut expected = model::Totals::default();
                expected.add(&traces[place]);
                assert_eq!((*at, numbers(own)), (place, expected.numbers()), "round {round}");
                for (m, most) in Master::BOTH.into_iter().zip(&mut longest) {
                    if own.longest(m) > most.0 {
                        *most = (own.longest(m), Some(place));
                    }
                }
            }
            let found = Master::BOTH.map(|m| (counted.totals.longest(m), counted.longest_in(m)));
            assert_eq!(found, longest, "round {round}");
        }
    }
}

/// Traces split among any number of counts, in any order, written out and joined: the totals of one.
#[test]
fn totals_that_were_kept_are_joined() {
    let mut rng = Rng::new(38);
    for round in 0..30 {
        let traces: Vec<Vec<u8>> = (0..rng.below(40)).map(|_| any_trace(&mut rng)).collect();
        let parts = 1 + rng.below(6) as usize;
        let mut split: Vec<Vec<Vec<u8>>> = vec![vec![]; parts];
        for trace in &traces {
            split[rng.below(parts as u64) as usize].push(trace.clone());
        }
        let mut texts: Vec<String> =
            split.iter().map(|part| kept::write(&stream(&input_of(part), 2).totals)).collect();
        (1..parts).for_each(|at| texts.swap(at, rng.below(at as u64 + 1) as usize));
        let mut joined = Totals::new();
        for text in &texts {
            let read = kept::read(text.as_bytes()).unwrap();
            assert_eq!(kept::write(&read), *text);
            joined.join(&read).unwrap();
        }
        let whole = stream(&input_of(&traces), 1).totals;
        assert_eq!((joined, numbers(&joined)), (whole, numbers(&whole)), "round {round}");
    }
}

/// What is no totals, or was cut or changed, is told with its line where there is one.
#[test]
fn what_is_no_totals_is_refused() {
    let mut rng = Rng::new(39);
    let traces: Vec<Vec<u8>> = (0..20).map(|_| any_trace(&mut rng)).collect();
    let text = kept::write(&stream(&input_of(&traces), 2).totals);
    assert_eq!(text.lines().count(), 1 + 17 + 1);
    for length in 0..text.len() - 1 {
        assert!(kept::read(&text.as_bytes()[..length]).is_err(), "{length}");
    }
    assert!(kept::read(text.replace('\n', "\r\n").as_bytes()).is_ok());
    let changed = |from: &str, to: &str| {
        let changed: String = text
            .lines()
            .map(
                |line| if line.starts_with(from) { format!("{to}\n") } else { format!("{line}\n") },
            )
            .collect();
        kept::read(changed.as_bytes()).unwrap_err().to_string()
    };
    let cases = [
        ("gunwaleish", "gunwaleish totals 2", "line 1: it is of another version"),
        ("gunwaleish", "70 0004", "it does not begin with the line gunwaleish totals 1"),
        ("traces", "traces 70000", "these are no totals: there are more than 65,535 traces"),
        ("traces", "traces 0", "these are no totals: more traces are refused than there are"),
        ("traces", "traces -1", "line 2: expected traces and a number"),
        ("traces", "ticks 4", "line 2: expected traces and a number"),
        ("ticks", "ticks 18446744073709551615", "do not add up to the ticks"),
        ("ticks", "ticks 18446744073709551616", "line 3: expected ticks and a number"),
        ("connected1", "connected1 99999999", "a controller is connected longer than it owned"),
        ("waited0", "waited0 99999999", "a controller waits while it owns"),
        ("longest0", "longest0 99999999", "a longest wait is longer than the waits"),
        ("end", "ende", "line 19: expected end"),
        ("end", "end\nend", "line 20: there are lines after end"),
    ];
    for (from, to, expected) in cases {
        let why = changed(from, to);
        assert!(why.contains(expected), "{to}: {why}");
    }
}

/// The inputs that the model keeps, cut ones and such as have too many traces among them.
#[test]
fn stored_inputs_give_the_models_text() {
    for case in model::stored_share::cases() {
        let (expected, past) = totals_of_input(&case.input);
        for threads in THREADS {
            let counted = stream(&case.input, threads);
            assert_eq!(words::lines(&counted), case.output(), "{}", case.name);
            assert_eq!(numbers(&counted.totals), expected.numbers(), "{}", case.name);
            assert_eq!(counted.past > 0, past, "{}", case.name);
        }
    }
}

/// A reader that gives little at a time, as a pipe may.
struct Slow<'a>(&'a [u8], Rng);

impl Read for Slow<'_> {
    fn read(&mut self, to: &mut [u8]) -> io::Result<usize> {
        let most = 1 + self.1.below(7) as usize;
        let most = most.min(to.len());
        self.0.read(&mut to[..most])
    }
}

/// Random streams, each also cut somewhere.
#[test]
fn streams_have_the_models_totals() {
    let mut rng = Rng::new(113);
    for round in 0..60 {
        let traces: Vec<Vec<u8>> = (0..rng.below(30)).map(|_| any_trace(&mut rng)).collect();
        let whole = input_of(&traces);
        let cut = rng.below(whole.len() as u64 + 1) as usize;
        for input in [&whole[..], &whole[..cut]] {
            let (expected, _) = totals_of_input(input);
            let counted = THREADS.map(|threads| stream(input, threads));
            assert_eq!(numbers(&counted[0].totals), expected.numbers(), "round {round}");
            assert!(counted.iter().all(|other| *other == counted[0]), "round {round}");
            let slow = of_stream(Slow(input, Rng::new(round)), "input", 2, &quiet()).unwrap();
            assert_eq!(slow, counted[0], "round {round}");
        }
    }
}

/// Many batches of a stream.
#[test]
fn long_streams_have_the_models_totals() {
    let mut rng = Rng::new(114);
    let some: Vec<Vec<u8>> = (0..40).map(|_| any_trace(&mut rng)).collect();
    let traces: Vec<Vec<u8>> = (0..3000).map(|_| some[rng.below(40) as usize].clone()).collect();
    let input = input_of(&traces);
    let (expected, _) = totals_of_input(&input);
    for threads in THREADS {
        let counted = stream(&input, threads);
        assert_eq!(numbers(&counted.totals), expected.numbers());
        assert!(counted.refused.is_sorted_by_key(|&(place, _)| place));
        let all = counted.refused.iter().all(|&(place, refusal)| {
            model::Totals::default().add(&traces[place]) == refusal.number()
        });
        assert!(all && counted.refused.len() as u64 == expected.refused.iter().sum::<u64>());
    }
}

/// An input that cannot be read to its end is no input that ends.
#[test]
fn a_stream_that_fails_is_told() {
    struct Broken;
    impl Read for Broken {
        fn read(&mut self, _: &mut [u8]) -> io::Result<usize> {
            Err(io::Error::other("the wire is cut"))
        }
    }
    let input = input_of(&[any_trace(&mut Rng::new(1))]);
    let failure = of_stream(input.chain(Broken), "input", 2, &quiet()).unwrap_err();
    assert_eq!(failure.code(), 2);
    assert_eq!(failure.to_string(), "input cannot be read: the wire is cut");
    assert_eq!(failure.source().map(ToString::to_string).as_deref(), Some("the wire is cut"));
}

/// The first 65,535 files that can be read are counted, and those after them are not.
#[test]
fn files_past_the_most_are_not_counted() {
    let folder = Folder::new("share-past");
    let good = folder.write("good.trace", &model::traces::trace(1, 12));
    let last = folder.write("last.trace", &[4]);
    let missing = folder.0.join("missing.trace");
    let mut paths = vec![good; MOST_TRACES - 1];
    paths.insert(7, missing.clone());
    paths.insert(60_000, missing.clone());
    paths.extend([missing, last.clone(), last.clone(), last]);
    for threads in THREADS {
        let (counted, unread) = of_files(&paths, threads, &quiet()).unwrap();
        assert_eq!((counted.totals.traces(), counted.past), (65_535, 2));
        assert_eq!((counted.totals.refused(5), unread.len()), (1, 3));
        assert_eq!(refused(&counted), [(MOST_TRACES + 2, 5)]);
        assert!(words::lines(&counted).ends_with("\nR6\n"));
        let (fewer, _) = of_files(&paths[..MOST_TRACES + 3], threads, &quiet()).unwrap();
        assert_eq!((fewer.past, &fewer.totals), (0, &counted.totals));
        assert!(!words::lines(&fewer).contains('R'));
    }
}

/// What explain says of one trace is what it adds. Its longest wait may be shorter: there an event
/// between two ticks can end a wait, of which the states after the ticks show nothing.
#[test]
fn explain_has_the_same_figures() {
    let mut rng = Rng::new(115);
    let mut broken = 0;
    for round in 0..300 {
        let trace = any_trace(&mut rng);
        let mut totals = Totals::default();
        let number = totals.add(&trace).map_or_else(|refusal| refusal.number(), |()| 0);
        let Ok(story) = story::follow(&trace) else {
            assert!(number > 0 && totals.refused(number) == 1, "round {round}");
            continue;
        };
        assert_eq!(totals.ticks(), story.ticks() as u64, "round {round}");
        for m in Master::BOTH {
            let share = summary::share(&story, m);
            let told = [share.owned, share.connected, share.waited].map(|ticks| ticks as u64);
            let added = [totals.owned(m), totals.connected(m), totals.waited(m)];
            assert_eq!(told, added, "round {round}, controller {m}");
            let longest = share.longest_wait().map_or(0, |wait| wait.ticks as u64);
            assert!(longest <= totals.longest(m), "round {round}, controller {m}");
            broken += u32::from(longest < totals.longest(m));
        }
    }
    assert!(broken > 0);
}

#[test]
fn shares_are_rounded_to_a_tenth() {
    let cases = [
        ((0, 0), "-"),
        ((0, 7), "0.0 %"),
        ((7, 7), "100.0 %"),
        ((1, 3), "33.3 %"),
        ((2, 3), "66.7 %"),
        ((1, 2000), "0.1 %"),
        ((1, 2001), "0.0 %"),
        ((u64::MAX, u64::MAX), "100.0 %"),
    ];
    for ((part, all), expected) in cases {
        assert_eq!(words::per_cent(part, all), expected);
    }
}
