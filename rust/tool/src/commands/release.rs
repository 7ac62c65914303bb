//! `release`: one verdict over all that a release folder holds.

use std::path::{Path, PathBuf};
use std::time::{SystemTime, UNIX_EPOCH};

use crate::arguments::Arguments;
use crate::command::{Command, Run};
use crate::failure::Failure;
use crate::files;
use crate::release::find::{read_bundle, Named};
use crate::release::judge::examine;
use crate::release::page::page;
use crate::release::{words, Asked, Examined};

pub const COMMAND: Command = Command {
    name: "release",
    summary: "is this bundle safe? one verdict over its sheets, scripts, shelf and traces",
    usage: "FOLDER [--most MS] [--without-limit 0|1|both] [-o PAGE] [file by file, as below]",
    help: "FOLDER has the order sheets of a bundle, board.sheet and house.sheet, and, if they are there, their\n\
           texts board.txt and house.txt, the start-up scripts start0.script and start1.script, a shelf\n\
           NAME.shelf (here or in shelf/) with the scripts for it beside it, and the traces of the bench,\n\
           NAME.trace, also in the folders inside. Files are named by option too, instead of the folder's\n\
           or without one:\n\n\
           --board FILE --house FILE --start0 FILE --start1 FILE --shelf FILE\n\
           --shelf-script FILE --traces PATH      these two also several times\n\n\
           The output says what was found and what was not, what is ordered, and how long each controller\n\
           can wait by it. Then comes the verdict, RELEASED or NOT RELEASED, with every reason against it,\n\
           the worst first: where it is, what is so, and what would mend it. Reasons are an empty box; a\n\
           file that is no sheet; a sheet that is not what its text says; a wait that is not bounded, or\n\
           behind a silent controller alone; one above --most MS; an order of the start-up scripts after\n\
           which nobody owns the bus though somebody asks, or that leaves other settings than the sheets\n\
           order, or in which an event is refused; a refused script, shelf or trace; a wait in a trace or\n\
           on the shelf that is longer than the sheets promise.\n\n\
           --without-limit 0 passes a ticked reserve of 0 of controller 0, which is then without limit on\n\
           purpose, and is told with the verdict. Where its reserve is not 0, that is a reason too. An\n\
           empty box is never passed.\n\n\
           -o report.html writes the page to file with the release too: one file that opens in any\n\
           browser and prints on A4, with the verdict, the sheets, the promised waits and what proves\n\
           them, pictures, and the SHA-256 of all that was read. A file that is there already is not\n\
           written over. In a folder that is there the page has the release's name.\n\n\
           Exit code: 0 released; 1 not released; 2 wrong use, a folder without both sheets, or a file\n\
           that cannot be read: there is no verdict then; or the page cannot be written.",
    options: &[
        ("--most", 1),
        ("--without-limit", 1),
        ("--board", 1),
        ("--house", 1),
        ("--start0", 1),
        ("--start1", 1),
        ("--shelf", 1),
        ("--shelf-script", 1),
        ("--traces", 1),
    ],
    example: "build/release/gunwaleish release releases/safe",
    run: Run::Alone(run),
};

fn run(arguments: &Arguments) -> Result<(), Failure> {
    let folder = match arguments.files.as_slice() {
        [] => None,
        [one] => Some(one.as_path()),
        many => {
            return Err(wrong(&format!("release needs one folder, and has {}", many.len())));
        }
    };
    let asked = asked(arguments)?;
    let output = output(arguments.output.as_deref(), folder)?;
    let examined = examine(read_bundle(folder, &named(arguments))?, asked);
    let filed = output.as_deref().map_or(Ok(String::new()), |path| file(&examined, path));
    let told = words::told(&examined) + filed.as_deref().unwrap_or_default();
    let printed = files::print(&told);
    filed?;
    match (printed, examined.is_released()) {
        (Err(failure @ (Failure::Wrong(_) | Failure::File(_))), _) => Err(failure),
        // The exit code tells the verdict also if nobody reads the text to its end.
        (_, false) => Err(Failure::NotReleased),
        (printed, true) => printed,
    }
}

/// Where the page goes, if one is wanted. What was filed is not written over, nor anything else.
fn output(output: Option<&Path>, folder: Option<&Path>) -> Result<Option<PathBuf>, Failure> {
    let Some(output) = output else {
        return Ok(None);
    };
    if files::is_standard(output) {
        return Err(wrong("the page needs a file: -o report.html"));
    }
    let path = match output.is_dir() {
        true => output.join(format!("{}.html", name_of(folder))),
        false => output.to_path_buf(),
    };
    match path.is_file() {
        true => {
            let name = files::name_of(&path);
            Err(wrong(&format!("{name} is there already, and is not written over")))
        }
        false => Ok(Some(path)),
    }
}

/// The release's own name, for a page in a folder of pages.
fn name_of(folder: Option<&Path>) -> String {
    let whole = folder.and_then(|folder| folder.canonicalize().ok());
    let name = whole.as_ref().and_then(|whole| whole.file_name());
    name.map_or("release".to_string(), |name| name.to_string_lossy().into_owned())
}

/// Writes the page, and says so.
fn file(examined: &Examined, path: &Path) -> Result<String, Failure> {
    let since = SystemTime::now().duration_since(UNIX_EPOCH);
    let at = since.map_or(0, |since| since.as_secs());
    files::write_whole(path, page(examined, at).as_bytes())?;
    Ok(format!("\nThe page to file: {}\n", files::name_of(path)))
}

fn wrong(what: &str) -> Failure {
    Failure::Wrong(format!("{what}; gunwaleish release --help tells more"))
}

fn asked(arguments: &Arguments) -> Result<Asked, Failure> {
    let word = |name| arguments.options.get(name).and_then(|words| words.first());
    asked_by(word("--most").map(String::as_str), word("--without-limit").map(String::as_str))
}

/// What is asked for by the words after --most and --without-limit.
pub fn asked_by(most: Option<&str>, without_limit: Option<&str>) -> Result<Asked, Failure> {
    let most = most.map(milliseconds).transpose()?;
    let without_limit = match without_limit {
        None => [false, false],
        Some("0") => [true, false],
        Some("1") => [false, true],
        Some("both") => [true, true],
        Some(other) => {
            let found = other.escape_debug();
            return Err(wrong(&format!("--without-limit '{found}', expected 0, 1 or both")));
        }
    };
    Ok(Asked { most, without_limit })
}

fn milliseconds(word: &str) -> Result<u64, Failure> {
    let digits = word.bytes().all(|byte| byte.is_ascii_digit());
    word.parse().ok().filter(|_| digits).ok_or_else(|| {
        wrong(&format!("--most '{}', expected a count of milliseconds", word.escape_debug()))
    })
}

/// The files that are named by option.
fn named(arguments: &Arguments) -> Named {
    let all = |name| arguments.paths.get(name).cloned().unwrap_or_default();
    let one = |name| all(name).into_iter().next();
    Named {
        board: one("--board"),
        house: one("--house"),
        starts: ["--start0", "--start1"].map(one),
        shelf: one("--shelf"),
        shelf_scripts: all("--shelf-script"),
        traces: all("--traces"),
    }
}
