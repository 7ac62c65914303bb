//! One output for each input: what most commands do.

use std::collections::{HashMap, HashSet};
use std::error::Error;
use std::fmt;
use std::io::{self, IsTerminal, Write};
use std::path::{Path, PathBuf};

use gunwaleish::{convert_trace, Refusal, MOST_TRACE};

use crate::arguments::Arguments;
use crate::failure::Failure;
use crate::files::{self, Input};
use crate::hint::{hint, Kind};

/// What a command makes of one input. With a refusal there may be an output all the same: a
/// listing says of a refused trace that it is refused.
pub struct Made {
    pub output: Option<Vec<u8>>,
    pub refused: Option<String>,
}

impl Made {
    pub fn done(output: impl Into<Vec<u8>>) -> Made {
        Made { output: Some(output.into()), refused: None }
    }

    pub fn refused(why: String) -> Made {
        Made { output: None, refused: Some(why) }
    }

    /// Writes the output there, or to standard output, and then tells the refusal.
    pub fn hand_out(self, to: Option<&Path>) -> Result<(), Failure> {
        if let Some(bytes) = self.output {
            match to {
                Some(path) => files::write_whole(path, &bytes)?,
                None => files::print_bytes(&bytes)?,
            }
        }
        self.refused.map_or(Ok(()), |why| Err(Failure::Refused(why)))
    }
}

/// Why a text is refused, as it is told, and the line that it is about, from 1, if it is about one.
#[derive(Clone, Debug, PartialEq, Eq)]
pub struct Mistake {
    pub why: String,
    pub line: Option<usize>,
}

impl fmt::Display for Mistake {
    fn fmt(&self, f: &mut fmt::Formatter) -> fmt::Result {
        f.write_str(&self.why)
    }
}

impl Error for Mistake {}

/// How a command goes over its inputs.
pub struct Each<F: Fn(&Input) -> Made> {
    /// The most bytes of an input that are of use.
    pub most: usize,
    /// The ending of an output's name in a folder.
    pub ending: &'static str,
    pub make: F,
}

/// For a command that makes something of a trace.
pub fn each_trace(
    arguments: &Arguments,
    ending: &'static str,
    make: fn(&Input) -> Made,
) -> Result<(), Failure> {
    Each { most: MOST_TRACE, ending, make }.run(arguments)
}

impl<F: Fn(&Input) -> Made> Each<F> {
    pub fn run(&self, arguments: &Arguments) -> Result<(), Failure> {
        let make = |file: &Path| Ok((self.make)(&files::read(file, self.most)?));
        EachFile { ending: self.ending, make }.run(arguments)
    }
}

/// The same of a command that reads its files itself.
pub struct EachFile<F: Fn(&Path) -> Result<Made, Failure>> {
    pub ending: &'static str,
    pub make: F,
}

impl<F: Fn(&Path) -> Result<Made, Failure>> EachFile<F> {
    pub fn run(&self, arguments: &Arguments) -> Result<(), Failure> {
        let standard = [PathBuf::from("-")];
        let files = match arguments.files.is_empty() {
            true => &standard[..],
            false => &arguments.files,
        };
        let outputs = self.outputs(files, arguments.output.as_deref())?;
        if let [one] = files {
            return self.one(one, outputs[0].as_deref());
        }
        self.many(files, &outputs)
    }

    fn one(&self, file: &Path, output: Option<&Path>) -> Result<(), Failure> {
        (self.make)(file)?.hand_out(output)
    }

    /// A file that fails is told, and the others go on.
    fn many(&self, files: &[PathBuf], outputs: &[Option<PathBuf>]) -> Result<(), Failure> {
        let terminal = io::stderr().is_terminal();
        let mut code = 0;
        for (place, (file, output)) in files.iter().zip(outputs).enumerate() {
            if terminal {
                let _ = write!(io::stderr(), "\r{} of {}", place + 1, files.len());
            }
            if let Err(failure) = self.one(file, output.as_deref()) {
                if terminal {
                    let _ = writeln!(io::stderr());
                }
                failure.say();
                code = code.max(failure.code());
            }
        }
        if terminal {
            let _ = writeln!(io::stderr());
        }
        match code {
            0 => Ok(()),
            code => Err(Failure::OfMany { refused: code == 1 }),
        }
    }

    /// Where each output goes; `None` is standard output. No output takes the place of an input,
    /// or of another output.
    fn outputs(
        &self,
        files: &[PathBuf],
        output: Option<&Path>,
    ) -> Result<Vec<Option<PathBuf>>, Failure> {
        let outputs = match output {
            Some(folder) if folder.is_dir() => {
                files.iter().map(|file| in_folder(folder, file, self.ending).map(Some)).collect()
            }
            _ if files.len() > 1 => {
                wrong("many files need a folder for their outputs: -o FOLDER, which is there")
            }
            Some(path) if !files::is_standard(path) => Ok(vec![Some(path.to_path_buf())]),
            _ => Ok(vec![None]),
        }?;
        let inputs = found(files);
        let mut taken: HashMap<&PathBuf, &PathBuf> = HashMap::new();
        for (file, path) in files.iter().zip(&outputs) {
            let Some(path) = path else { continue };
            if let Some(other) = taken.insert(path, file) {
                let [one, two, to] = [other, file, path].map(|path| files::name_of(path));
                return wrong(&format!("{one} and {two} would both be written to {to}"));
            }
            keep_inputs(path, &inputs)?;
        }
        Ok(outputs)
    }
}

/// Where the one output of several inputs goes; `None` is standard output. In a folder it has the
/// first one's name, and it takes the place of none of them.
pub fn output_of(
    files: &[PathBuf],
    ending: &str,
    output: Option<&Path>,
) -> Result<Option<PathBuf>, Failure> {
    let path = match (output, files.first()) {
        (Some(folder), Some(first)) if folder.is_dir() => in_folder(folder, first, ending)?,
        (Some(path), _) if !files::is_standard(path) => path.to_path_buf(),
        _ => return Ok(None),
    };
    keep_inputs(&path, &found(files))?;
    Ok(Some(path))
}

/// The files that are there, by their full names.
fn found(files: &[PathBuf]) -> HashSet<PathBuf> {
    files.iter().filter_map(|file| file.canonicalize().ok()).collect()
}

fn keep_inputs(path: &Path, inputs: &HashSet<PathBuf>) -> Result<(), Failure> {
    match path.canonicalize().is_ok_and(|path| inputs.contains(&path)) {
        true => wrong(&format!("{} is an input, and is not written over", files::name_of(path))),
        false => Ok(()),
    }
}

fn in_folder(folder: &Path, file: &Path, ending: &str) -> Result<PathBuf, Failure> {
    let stem = file.file_stem().filter(|_| !files::is_standard(file));
    let Some(stem) = stem else {
        return wrong(&format!("{} has no name to use in a folder", files::name_of(file)));
    };
    let mut name = stem.to_os_string();
    name.push(".");
    name.push(ending);
    Ok(folder.join(name))
}

fn wrong<T>(what: &str) -> Result<T, Failure> {
    Err(Failure::Wrong(what.to_string()))
}

/// Why a trace is refused: number, words, the byte where it was seen, and what the file is instead.
pub fn refused(input: &Input, refusal: Refusal) -> String {
    let place = seen_at(&input.bytes, refusal);
    // What can be converted is an old trace.
    let old = match convert_trace(&input.bytes) {
        Ok(_) => "; it is an old trace, which names no part: gunwaleish convert gives it PCA9641",
        Err(_) => "",
    };
    format!("{}: {refusal} (seen at byte {place}{old}){}", input.name, hint(input, Kind::Trace))
}

/// The place of the byte that is wrong, from 0; for bytes that are missing, that of the first one.
/// The library says what is wrong, and the layout of a trace where.
pub fn seen_at(trace: &[u8], refusal: Refusal) -> usize {
    let section = end_of_events(trace);
    match refusal {
        Refusal::WrongCount if trace.first() == Some(&4) => section,
        Refusal::WrongCount => 0,
        Refusal::NoSuchPart => section + 1,
        Refusal::NoSuchStrapping => {
            let mut pins = trace.iter().skip(1).take(4);
            1 + pins.position(|&code| code > 3).unwrap_or(0)
        }
        Refusal::TooManyEvents => 5,
        Refusal::BytesAfterEnd => section + 2,
        _ => trace.len(),
    }
}

/// The place after the events, where an old trace ends and a new one has its part.
pub fn end_of_events(trace: &[u8]) -> usize {
    let count = |at: usize| trace.get(at).map_or(0, |&byte| usize::from(byte));
    7 + 4 * (count(5) + 256 * count(6))
}
