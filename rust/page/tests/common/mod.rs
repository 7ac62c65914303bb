//! What the tests share: the repository's files, and requests.

#![allow(dead_code)]

use std::path::{Path, PathBuf};
use std::{env, fs};

use gunwaleish_page::fields::{join, split};

/// Goes to the repository's root, where the names of files are as its pages have them.
pub fn at_root() -> PathBuf {
    let root = Path::new(env!("CARGO_MANIFEST_DIR")).join("../..").canonicalize().unwrap();
    env::set_current_dir(&root).unwrap();
    root
}

pub fn file(name: &str) -> Vec<u8> {
    fs::read(name).unwrap_or_else(|error| panic!("{name}: {error}"))
}

/// The files of a folder, and of the folders in it, that end so; sorted.
pub fn files(folder: &str, ending: &str) -> Vec<String> {
    let mut found = vec![];
    for entry in fs::read_dir(folder).unwrap() {
        let name = format!("{folder}/{}", entry.unwrap().file_name().to_str().unwrap());
        match Path::new(&name).is_dir() {
            true => found.extend(files(&name, ending)),
            false if name.ends_with(ending) => found.push(name),
            false => {}
        }
    }
    found.sort();
    found
}

/// An answer's fields.
#[derive(Debug, PartialEq, Eq)]
pub struct Answered {
    pub ok: bool,
    pub fields: Vec<Vec<u8>>,
}

impl Answered {
    pub fn text(&self, place: usize) -> &str {
        std::str::from_utf8(&self.fields[place]).unwrap()
    }
}

pub fn ask(name: &str, arguments: &[&[u8]]) -> Answered {
    let request = join([name.as_bytes()].into_iter().chain(arguments.iter().copied()));
    read(&gunwaleish_page::ask(&request))
}

pub fn read(answer: &[u8]) -> Answered {
    let fields = split(answer).expect("an answer is fields");
    let ok = fields[0] == b"ok";
    assert!(ok || fields[0] == b"refused" && fields.len() >= 3, "{fields:?}");
    Answered { ok, fields: fields[1..].iter().map(|field| field.to_vec()).collect() }
}

/// A request that is to be done: its results.
pub fn done(name: &str, arguments: &[&[u8]]) -> Answered {
    let answer = ask(name, arguments);
    assert!(answer.ok, "{name}: {:?}", String::from_utf8_lossy(&answer.fields[0]));
    answer
}

/// Equal, or where they first differ.
pub fn same(what: &str, one: &[u8], other: &[u8]) {
    if one != other {
        let at = one.iter().zip(other).take_while(|(a, b)| a == b).count();
        let near = |bytes: &[u8]| {
            String::from_utf8_lossy(&bytes[at.saturating_sub(60)..bytes.len().min(at + 60)])
                .into_owned()
        };
        panic!("{what} differ at byte {at}:\n{}\n{}", near(one), near(other));
    }
}
