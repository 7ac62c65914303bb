//! One verdict over the files of a bundle, which have names and bytes and lie in no folder.

use std::collections::BTreeMap;
use std::path::{Path, PathBuf};

use gunwaleish::Master;
use gunwaleish_tool::commands::release::asked_by;
use gunwaleish_tool::failure::Failure;
use gunwaleish_tool::json::{object, Value};
use gunwaleish_tool::release::find::{bundle_of_names, read_whole};
use gunwaleish_tool::release::judge::examine;
use gunwaleish_tool::release::page::page;
use gunwaleish_tool::release::{words, Bench, Examined, Rank, Read, Reason};

use crate::fields::{named, Answer, Request};
use crate::sheets::as_json;

/// The folder that files without one are said to be in.
const FOLDER: &str = "bundle";

/// What a request brings: files, and options among them.
#[derive(Default)]
struct Given<'a> {
    files: BTreeMap<PathBuf, (&'a [u8], Option<u64>)>,
    options: BTreeMap<String, String>,
}

impl<'a> Given<'a> {
    fn read(request: &Request<'a>) -> Given<'a> {
        let mut given = Given::default();
        let mut last = PathBuf::new();
        for pair in request.arguments.chunks(2) {
            let (name, bytes) = (named(pair[0]), pair.get(1).copied().unwrap_or_default());
            let text = || named(bytes);
            match name.as_str() {
                "--changed" => {
                    // Of the file before it.
                    if let Some(file) = given.files.get_mut(&last) {
                        file.1 = text().parse().ok();
                    }
                }
                option if option.starts_with("--") => {
                    _ = given.options.insert(option.to_string(), text())
                }
                name => {
                    last = PathBuf::from(name);
                    given.files.insert(last.clone(), (bytes, None));
                }
            }
        }
        given
    }

    fn option(&self, name: &str) -> Option<&str> {
        self.options.get(name).map(String::as_str).filter(|word| !word.is_empty())
    }

    /// The folder that all names begin with, or that is put before them.
    fn in_folder(mut self) -> (PathBuf, Given<'a>) {
        let named = self.option("--folder").map(PathBuf::from);
        let folder = named.or_else(|| self.common()).unwrap_or(PathBuf::from(FOLDER));
        let inside = |path: PathBuf| match path.starts_with(&folder) {
            true => path,
            false => folder.join(path),
        };
        self.files = std::mem::take(&mut self.files)
            .into_iter()
            .map(|(path, file)| (inside(path), file))
            .collect();
        (folder, self)
    }

    /// The first folder of all names, if it is one.
    fn common(&self) -> Option<PathBuf> {
        let first = |path: &Path| {
            let mut parts = path.components();
            let first = PathBuf::from(parts.next()?.as_os_str());
            parts.next().map(|_| first)
        };
        let mut folders = self.files.keys().map(|path| first(path));
        let one = folders.next()??;
        folders.all(|other| other.as_ref() == Some(&one)).then_some(one)
    }
}

/// The words, the same as JSON, and the page to file.
pub fn judged(request: &Request) -> Answer {
    let (folder, given) = Given::read(request).in_folder();
    match examined(&folder, &given) {
        Err(failure) => Answer::refused(failure.text()),
        Ok(examined) => {
            let at = given.option("--at").and_then(|word| word.parse().ok()).unwrap_or(0);
            let told = words::told(&examined);
            Answer::ok(told).and(json(&examined).to_string()).and(page(&examined, at))
        }
    }
}

fn examined(folder: &Path, given: &Given) -> Result<Examined, Failure> {
    let asked = asked_by(given.option("--most"), given.option("--without-limit"))?;
    let read = |path: &Path, most: usize| -> Result<Read, Failure> {
        let cannot =
            |why: &str| Failure::Wrong(format!("{} cannot be read: {why}", path.display()));
        let (bytes, changed) = given.files.get(path).ok_or_else(|| cannot("it is not there"))?;
        read_whole(*bytes, path, most, *changed).map_err(|error| cannot(&error.to_string()))
    };
    let bundle = bundle_of_names(folder, given.files.keys().cloned().collect(), &read)?;
    Ok(examine(bundle, asked))
}

fn json(examined: &Examined) -> Value {
    let allowed: Vec<String> = examined
        .allowed
        .iter()
        .map(|allowed| format!("--without-limit {}: {}", allowed.controller, allowed.what))
        .collect();
    object([
        ("released", examined.is_released().into()),
        ("verdict", words::verdict(examined).into()),
        ("reasons", examined.reasons.iter().map(reason).collect::<Vec<_>>().into()),
        ("allowed", allowed.into()),
        ("found", words::found(&examined.bundle).into()),
        ("order", examined.pair.as_ref().ok().map_or(Value::Null, as_json)),
        ("bench", examined.bench.iter().map(bench).collect::<Vec<_>>().into()),
    ])
}

fn reason(reason: &Reason) -> Value {
    object([
        ("rank", rank(reason.rank).into()),
        ("file", reason.file.as_str().into()),
        ("place", reason.place.as_deref().into()),
        ("what", reason.what.as_str().into()),
        ("mend", reason.mend.as_str().into()),
    ])
}

/// A rank in a word, as the sample folders have it.
fn rank(rank: Rank) -> &'static str {
    match rank {
        Rank::EmptyBox => "empty-box",
        Rank::NoSheet => "no-sheet",
        Rank::OtherText => "other-text",
        Rank::Unbounded => "unbounded",
        Rank::SilentAlone => "silent-alone",
        Rank::NobodyOwns => "nobody-owns",
        Rank::NotAsOrdered => "not-as-ordered",
        Rank::AboveMost => "above-most",
        Rank::WaitsLonger => "waits-longer",
        Rank::EventRefused => "event-refused",
        Rank::FileRefused => "file-refused",
        Rank::NotWithoutLimit => "not-without-limit",
    }
}

/// How long each controller waited at most in a trace, or at a place of the shelf.
fn bench(bench: &Bench) -> Value {
    let longest = |m| bench.totals.as_ref().ok().map(|totals| totals.longest(m));
    object([
        ("name", bench.name().into()),
        ("part", bench.part.map(|part| part.name()).into()),
        ("longest", Master::BOTH.map(longest).to_vec().into()),
        ("longer", bench.longer.to_vec().into()),
    ])
}
