//! The files of a release: by their names in a folder, or named one by one.

use std::collections::BTreeSet;
use std::fs::File;
use std::io;
use std::path::{Path, PathBuf};
use std::time::UNIX_EPOCH;

use gunwaleish::MOST_TRACE;

use super::{Bundle, Read, ShelfRead};
use crate::commands::compose::MOST_TEXT;
use crate::commands::fill;
use crate::failure::Failure;
use crate::files::{is_standard, name_of};
use crate::sha256::{hex, Sha256};
use crate::walk::{find, Found};

/// The files that are named by options. They take the place of what the folder has.
#[derive(Clone, Debug, Default, PartialEq, Eq)]
pub struct Named {
    pub board: Option<PathBuf>,
    pub house: Option<PathBuf>,
    /// The start-up scripts, controller 0's first.
    pub starts: [Option<PathBuf>; 2],
    pub shelf: Option<PathBuf>,
    pub shelf_scripts: Vec<PathBuf>,
    /// Traces, and folders of them.
    pub traces: Vec<PathBuf>,
}

/// What the files of a folder are called. Any other `.script` beside the shelf is for it.
pub const BOARD: &str = "board.sheet";
pub const HOUSE: &str = "house.sheet";
pub const STARTS: [&str; 2] = ["start0.script", "start1.script"];

/// How a file is read: all of it for its size and its hash, and so many of its bytes kept, and one more.
pub type Reading<'a> = &'a dyn Fn(&Path, usize) -> Result<Read, Failure>;

/// Finds the files and reads them all. What cannot be read, or is not there and has to be, is a failure:
/// there is no verdict over a part of a release.
pub fn read_bundle(folder: Option<&Path>, named: &Named) -> Result<Bundle, Failure> {
    let here = folder.map_or(Ok(Here::default()), Here::look_into)?;
    bundle_of(&here, folder, named, &read)
}

/// The same of a folder that is on no disk: the names of its files, each with the folder's before it.
pub fn bundle_of_names(
    folder: &Path,
    names: Vec<PathBuf>,
    read: Reading,
) -> Result<Bundle, Failure> {
    let here = Here { folder: folder.to_path_buf(), found: Found::of_names(names) };
    bundle_of(&here, Some(folder), &Named::default(), read)
}

fn bundle_of(
    here: &Here,
    folder: Option<&Path>,
    named: &Named,
    read: Reading,
) -> Result<Bundle, Failure> {
    let mut named = here.fill_in(named);
    let board = named.board.take().ok_or_else(|| here.lacks(BOARD, "--board"))?;
    let house = named.house.take().ok_or_else(|| here.lacks(HOUSE, "--house"))?;
    here.add_shelf(&mut named)?;
    let [of_board, of_house] = [&board, &house].map(|sheet| here.text_of(sheet, read));
    let traces = match named.traces.is_empty() {
        true => here.found.files.clone(),
        false => traces_of(&named.traces)?,
    };
    let mut bundle = Bundle {
        folder: folder.map(name_of),
        // More than a sheet has, by which another file is known.
        board: read(&board, MOST_TRACE)?,
        house: read(&house, MOST_TRACE)?,
        texts: [of_board?, of_house?],
        scripts: read_starts(&named.starts, read)?,
        shelf: read_shelf(&named, read)?,
        traces: traces.iter().map(|path| read(path, MOST_TRACE)).collect::<Result<_, _>>()?,
        others: vec![],
    };
    bundle.others = here.not_read(&bundle);
    Ok(bundle)
}

fn read_starts(starts: &[Option<PathBuf>; 2], read: Reading) -> Result<Option<[Read; 2]>, Failure> {
    match starts {
        [Some(first), Some(second)] => Ok(Some([read(first, MOST_TEXT)?, read(second, MOST_TEXT)?])),
        [None, None] => Ok(None),
        [Some(one), None] | [None, Some(one)] => Err(wrong(&format!(
            "{} is there without the other controller's start-up script, and their orders need both",
            name_of(one)
        ))),
    }
}

fn read_shelf(named: &Named, read: Reading) -> Result<Option<ShelfRead>, Failure> {
    let read = |path: &PathBuf| read(path, MOST_TEXT);
    match &named.shelf {
        Some(shelf) => {
            let scripts = named.shelf_scripts.iter().map(read).collect::<Result<_, _>>()?;
            Ok(Some(ShelfRead { shelf: read(shelf)?, scripts }))
        }
        None if named.shelf_scripts.is_empty() => Ok(None),
        None => Err(wrong("--shelf-script needs a shelf: --shelf FILE")),
    }
}

/// The traces among these names and in these folders. A folder that is named for its traces has some.
fn traces_of(names: &[PathBuf]) -> Result<Vec<PathBuf>, Failure> {
    let Found { files, unread, empty, .. } = find(names);
    let none = empty.first().map(|none| wrong(&none.text()));
    unread.into_iter().next().or(none).map_or(Ok(files), Err)
}

/// What a folder has.
#[derive(Default)]
struct Here {
    folder: PathBuf,
    found: Found,
}

impl Here {
    fn look_into(folder: &Path) -> Result<Here, Failure> {
        let name = name_of(folder);
        if is_standard(folder) {
            return Err(wrong("standard input is no folder"));
        }
        let metadata = folder.metadata().map_err(|error| Failure::unread(&name, error))?;
        if !metadata.is_dir() {
            return Err(wrong(&format!(
                "{name} is no folder; single files are named by option, the sheets with --board and --house"
            )));
        }
        let mut found = find(&[folder.to_path_buf()]);
        match found.unread.is_empty() {
            true => Ok(Here { folder: folder.to_path_buf(), found }),
            false => Err(found.unread.remove(0)),
        }
    }

    /// The files of the folder, where none is named instead.
    fn fill_in(&self, named: &Named) -> Named {
        let mut named = named.clone();
        named.board = named.board.or_else(|| self.file(BOARD));
        named.house = named.house.or_else(|| self.file(HOUSE));
        for (start, name) in named.starts.iter_mut().zip(STARTS) {
            *start = start.take().or_else(|| self.file(name));
        }
        named
    }

    /// The shelf of the folder and the scripts for it, where none are named instead.
    fn add_shelf(&self, named: &mut Named) -> Result<(), Failure> {
        let shelf = if named.shelf.is_some() { None } else { self.shelf()? };
        if named.shelf_scripts.is_empty() {
            named.shelf_scripts = shelf.as_deref().map_or(vec![], |shelf| self.beside(shelf));
        }
        named.shelf = named.shelf.take().or(shelf);
        Ok(())
    }

    /// A file of the folder itself, if it has one of this name.
    fn file(&self, name: &str) -> Option<PathBuf> {
        let path = self.folder.join(name);
        self.found.others.iter().find(|other| **other == path).cloned()
    }

    /// The one shelf, in the folder itself or in its folder `shelf`.
    fn shelf(&self) -> Result<Option<PathBuf>, Failure> {
        let places = [self.folder.clone(), self.folder.join("shelf")];
        let is_shelf = |path: &&PathBuf| {
            ends_in(path, "shelf") && places.iter().any(|place| path.parent() == Some(place))
        };
        let shelves: Vec<&PathBuf> = self.found.others.iter().filter(is_shelf).collect();
        match shelves.as_slice() {
            [] => Ok(None),
            [one] => Ok(Some(one.to_path_buf())),
            [first, second, ..] => Err(wrong(&format!(
                "a release has one shelf, and {} and {} are there; --shelf names the one",
                name_of(first),
                name_of(second)
            ))),
        }
    }

    /// The scripts beside a shelf, without those of the start.
    fn beside(&self, shelf: &Path) -> Vec<PathBuf> {
        let starts = STARTS.map(|name| self.folder.join(name));
        let is_for_it = |path: &&PathBuf| {
            ends_in(path, "script") && path.parent() == shelf.parent() && !starts.contains(path)
        };
        self.found.others.iter().filter(is_for_it).cloned().collect()
    }

    /// The text of a sheet, if it stands beside it in the folder under the same name.
    fn text_of(&self, sheet: &Path, read: Reading) -> Result<Option<Read>, Failure> {
        let text = sheet.with_extension("txt");
        let is_there = self.found.others.contains(&text);
        is_there.then(|| read(&text, fill::MOST_TEXT)).transpose()
    }

    /// That a sheet is not there, and how it comes there.
    fn lacks(&self, name: &str, option: &str) -> Failure {
        if self.folder.as_os_str().is_empty() {
            return wrong(&format!(
                "release needs a folder, or both sheets by option, and {option} is not there"
            ));
        }
        let (folder, path) = (name_of(&self.folder), self.folder.join(name));
        let text = path.with_extension("txt");
        if self.found.others.contains(&text) {
            return Failure::Wrong(format!(
                "{folder} has no {name}, but its text: gunwaleish fill {} -o {} makes the sheet",
                name_of(&text),
                name_of(&path)
            ));
        }
        wrong(&format!("{folder} has no {name}; {option} names another file"))
    }

    /// The names of what is in the folder and was not read.
    fn not_read(&self, bundle: &Bundle) -> Vec<String> {
        let Found { files, others, links, .. } = &self.found;
        let mut all: Vec<&PathBuf> = files.iter().chain(others).chain(links).collect();
        all.sort();
        let read: BTreeSet<&PathBuf> = bundle.files().map(|file| &file.path).collect();
        all.retain(|path| !read.contains(path));
        all.into_iter().map(|path| name_of(path)).collect()
    }
}

fn ends_in(path: &Path, ending: &str) -> bool {
    path.extension().is_some_and(|found| found == ending)
}

fn wrong(what: &str) -> Failure {
    Failure::Wrong(format!("{what}; gunwaleish release --help tells more"))
}

/// How much is read at once.
const PIECE: usize = 1 << 16;

/// Reads a file to its end for its size and its hash, and keeps so many bytes of it and one more. That
/// byte shows that there is more.
pub fn read(path: &Path, most: usize) -> Result<Read, Failure> {
    let name = name_of(path);
    let open = || -> io::Result<Read> {
        // A pipe or a device may have no end, and nobody can look at it again.
        match path.metadata()?.is_file() {
            true => read_open(File::open(path)?, path, most),
            false => Err(io::Error::other("it is no file")),
        }
    };
    open().map_err(|error| Failure::unread(name, error))
}

fn read_open(file: File, path: &Path, most: usize) -> io::Result<Read> {
    let changed = file.metadata()?.modified().ok();
    let changed = changed.and_then(|time| time.duration_since(UNIX_EPOCH).ok());
    read_whole(file, path, most, changed.map(|time| time.as_secs()))
}

/// The same of anything that can be read, last changed at this moment, in seconds since 1970.
pub fn read_whole(
    mut from: impl io::Read,
    path: &Path,
    most: usize,
    changed: Option<u64>,
) -> io::Result<Read> {
    let (mut bytes, mut size, mut hash) = (vec![], 0, Sha256::new());
    let mut piece = vec![0; PIECE];
    loop {
        let count = match from.read(&mut piece) {
            Ok(0) => break,
            Ok(count) => count,
            Err(error) if error.kind() == io::ErrorKind::Interrupted => continue,
            Err(error) => return Err(error),
        };
        hash.update(&piece[..count]);
        size += count as u64;
        let room = (most + 1).saturating_sub(bytes.len());
        bytes.extend_from_slice(&piece[..count.min(room)]);
    }
    Ok(Read {
        path: path.to_path_buf(),
        name: name_of(path),
        bytes,
        size,
        changed,
        sha256: hex(&hash.finish()),
    })
}
