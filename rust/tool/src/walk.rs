//! The files that are traces: those that are named, and those of folders that end in `.trace`. What is
//! run, what is counted and what a release has is found by this one walk.

use std::fs::{self, DirEntry};
use std::io;
use std::path::{Path, PathBuf};

use crate::failure::Failure;
use crate::files::name_of;
use crate::words::count;

/// What was found under the names.
#[derive(Debug, Default)]
pub struct Found {
    /// In the order of the names, those of a folder sorted.
    pub files: Vec<PathBuf>,
    /// What each folder has, and what was skipped in it.
    pub said: Vec<String>,
    /// What is in the folders and is no trace, sorted: files of another name, and what is neither a
    /// file nor a folder.
    pub others: Vec<PathBuf>,
    /// Links to folders, which are not followed, since they could lead in a circle.
    pub links: Vec<PathBuf>,
    /// Folders that cannot be read.
    pub unread: Vec<Failure>,
    /// Folders that were named and have no trace, each with what was skipped in it.
    pub empty: Vec<Failure>,
}

impl Found {
    /// Files of which the names alone are known, sorted into traces and others.
    pub fn of_names(mut names: Vec<PathBuf>) -> Found {
        names.sort();
        let (files, others) = names.into_iter().partition(|name| is_trace(name));
        Found { files, others, ..Found::default() }
    }

    /// What is wrong with the folders, where each that is named is to have traces.
    pub fn failures(&self) -> impl Iterator<Item = &Failure> {
        self.empty.iter().chain(&self.unread)
    }
}

/// A file is taken whatever its name. A folder is searched, and so are the folders in it.
pub fn find(names: &[PathBuf]) -> Found {
    let mut found = Found::default();
    for name in names {
        match name.is_dir() {
            true => found.search(name),
            false => found.files.push(name.clone()),
        }
    }
    found
}

impl Found {
    fn search(&mut self, folder: &Path) {
        let mut here = Search::default();
        let unread = here.look_into(folder);
        for paths in [&mut here.files, &mut here.others, &mut here.links] {
            paths.sort();
        }
        let told = format!("{}: {}", name_of(folder), here.told());
        match here.files.is_empty() && unread.is_empty() {
            true => self.empty.push(Failure::Refused(told)),
            false => self.said.push(told),
        }
        self.unread.extend(unread);
        self.files.extend(here.files);
        self.others.extend(here.others);
        self.links.extend(here.links);
    }
}

/// True of a name that ends in `.trace`, in any letters.
fn is_trace(path: &Path) -> bool {
    path.extension().is_some_and(|ending| ending.eq_ignore_ascii_case("trace"))
}

/// What one folder has.
#[derive(Default)]
struct Search {
    files: Vec<PathBuf>,
    others: Vec<PathBuf>,
    links: Vec<PathBuf>,
}

impl Search {
    /// Gives the folders that cannot be read.
    fn look_into(&mut self, folder: &Path) -> Vec<Failure> {
        let mut unread = vec![];
        let mut folders = vec![folder.to_path_buf()];
        while let Some(folder) = folders.pop() {
            let looked = fs::read_dir(&folder).and_then(|entries| {
                for entry in entries {
                    folders.extend(self.sort_out(&entry?)?);
                }
                Ok(())
            });
            if let Err(error) = looked {
                unread.push(Failure::unread(name_of(&folder), error));
            }
        }
        unread
    }

    /// Gives a folder that is to be searched too.
    fn sort_out(&mut self, entry: &DirEntry) -> io::Result<Option<PathBuf>> {
        let (kind, path) = (entry.file_type()?, entry.path());
        if kind.is_dir() {
            return Ok(Some(path));
        }
        let trace = is_trace(&path);
        // A link that leads nowhere is taken, and told when it cannot be read.
        let file = kind.is_file() || kind.is_symlink() && !path.is_dir();
        match (trace && file, kind.is_symlink() && path.is_dir()) {
            (true, _) => self.files.push(path),
            (false, true) => self.links.push(path),
            (false, false) => self.others.push(path),
        }
        Ok(None)
    }

    fn told(&self) -> String {
        let mut skipped = vec![];
        let (others, links) = (self.others.len(), self.links.len());
        if others > 0 {
            let verb = if others == 1 { "does" } else { "do" };
            skipped.push(format!("{} that {verb} not end in .trace", count(others, "file")));
        }
        if links > 0 {
            skipped.push(format!("{} to folders", count(links, "link")));
        }
        let traces = match self.files.len() {
            0 => "no trace".to_string(),
            some => count(some, "trace"),
        };
        match skipped.is_empty() {
            true => traces,
            false => format!("{traces}; skipped: {}", skipped.join(", ")),
        }
    }
}
