//! What a file is that was given in the place of another, and which command takes it: by its first
//! bytes, and where they say nothing by the ending of its name. It is a guess, so what it says stands
//! behind the refusal and takes nothing of it away.

use gunwaleish::{convert_trace, run_trace, Pins, Sheet, MOST_EVENTS, SHEET_LENGTH};

use crate::files::Input;
use crate::form;
use crate::samples::form::VCD;
use crate::script::{each_line, Unread, Words};
use crate::seen::Seen;
use crate::share::kept;
use crate::sheet::faults::fault;

/// What a file can be.
#[derive(Clone, Copy, Debug, PartialEq, Eq)]
pub enum Kind {
    Empty,
    Trace,
    OldTrace,
    Stream,
    Script,
    ShelfScript,
    Shelf,
    Sheet,
    SheetText,
    Capture,
    Totals,
    Listing,
    Zip,
    Gzip,
    Vcd,
    Csv,
    Picture,
    Utf16,
    /// No more is known of it.
    Text,
}

/// What to say behind the refusal of a file that was to be of a kind; nothing if it looks like one.
pub fn hint(input: &Input, wanted: Kind) -> String {
    hint_of(&input.name, &input.bytes, wanted)
}

/// The same of a name and what the file has.
pub fn hint_of(name: &str, bytes: &[u8], wanted: Kind) -> String {
    let kind = looks_like(name, bytes);
    kind.and_then(|kind| said(kind, wanted)).map_or(String::new(), |text| format!("; it {text}"))
}

/// What a file of this name and with these bytes looks like, if like anything.
pub fn looks_like(name: &str, bytes: &[u8]) -> Option<Kind> {
    let kind = kind_of(bytes).or_else(|| kind_by_name(name));
    kind.or_else(|| is_text(bytes).then_some(Kind::Text))
}

/// What a file is and what to do with it, where another kind is wanted.
pub fn said(kind: Kind, wanted: Kind) -> Option<String> {
    (kind != wanted && !is_told(kind, wanted)).then(|| in_words(kind, wanted))
}

/// True if the refusal itself says enough.
fn is_told(kind: Kind, wanted: Kind) -> bool {
    match kind {
        // That it is old is told with the refusal.
        Kind::OldTrace => wanted == Kind::Trace,
        // The word that cannot be read says so itself.
        Kind::ShelfScript => wanted == Kind::Script,
        // The name of a box has commas too, and what cannot be filled in says so itself.
        Kind::Csv | Kind::Utf16 => wanted == Kind::SheetText,
        Kind::Text => {
            let texts = [Kind::Script, Kind::ShelfScript, Kind::Shelf];
            texts.contains(&wanted) || matches!(wanted, Kind::Totals | Kind::SheetText)
        }
        _ => false,
    }
}

fn in_words(kind: Kind, wanted: Kind) -> String {
    let words = match kind {
        Kind::Empty => "is empty",
        Kind::Trace | Kind::OldTrace => {
            return format!("looks like a trace: {}", of_trace(wanted));
        }
        Kind::Stream => "looks like a stream of traces: gunwaleish share --stream counts it",
        Kind::ShelfScript if wanted == Kind::Shelf => {
            "looks like a script: the shelf comes first, and then its script"
        }
        Kind::ShelfScript => "looks like a script for a shelf: gunwaleish shelf runs it",
        Kind::Script => {
            "looks like a script for one device: gunwaleish compose makes a trace of it"
        }
        Kind::Shelf => "looks like a shelf file: gunwaleish shelf takes it, and then a script",
        Kind::Sheet => {
            "looks like an order sheet: gunwaleish sheet shows it, and tells what two of them order"
        }
        Kind::SheetText => {
            "looks like the text of an order sheet: gunwaleish fill makes the sheet of it"
        }
        Kind::Capture => "looks like a capture: gunwaleish import makes a trace of it",
        Kind::Totals => "looks like totals: gunwaleish share --join takes them",
        Kind::Listing => {
            "looks like a listing, which gunwaleish list makes of a trace, and nothing reads"
        }
        Kind::Zip => ZIP,
        Kind::Gzip => "is compressed: gunzip gives what is in it",
        Kind::Vcd => return exported("a VCD file of waveforms"),
        Kind::Csv => return exported("a CSV file"),
        Kind::Picture => "looks like a picture, which nothing reads",
        Kind::Utf16 => "is text in UTF-16: save it as UTF-8",
        Kind::Text => of_text(wanted),
    };
    words.to_string()
}

const ZIP: &str =
    "looks like a zip file, as a sigrok session is one (.sr): gunwaleish import takes \
                   that, if sigrok-cli is installed, and docs/CAPTURES.md tells more";

fn of_text(wanted: Kind) -> &'static str {
    match wanted {
        Kind::Sheet => "looks like plain text: gunwaleish fill makes a sheet of a sheet's text",
        _ => "looks like plain text, which no trace, capture or order sheet is",
    }
}

fn exported(what: &str) -> String {
    format!(
        "looks like {what}: gunwaleish import reads one that has the lines of both buses, and \
         docs/CAPTURES.md tells how one is exported"
    )
}

/// What takes a trace.
fn of_trace(wanted: Kind) -> &'static str {
    match wanted {
        Kind::Stream => "one trace is counted without --stream",
        Kind::Totals => "gunwaleish share counts it",
        Kind::Script | Kind::ShelfScript => "gunwaleish decompose makes a script of it",
        _ => "gunwaleish explain tells it in words",
    }
}

/// What the bytes look like, if like anything.
pub fn kind_of(bytes: &[u8]) -> Option<Kind> {
    let starts = |with: &[u8]| bytes.starts_with(with);
    match bytes {
        [] => Some(Kind::Empty),
        _ if starts(b"PK\x03\x04") => Some(Kind::Zip),
        _ if starts(b"\x1F\x8B") => Some(Kind::Gzip),
        _ if starts(b"\xFF\xFE") || starts(b"\xFE\xFF") => Some(Kind::Utf16),
        _ if bytes.len() == SHEET_LENGTH && fault(bytes, Sheet::Board).is_none() => {
            Some(Kind::Sheet)
        }
        _ if begins_trace(bytes) => Some(Kind::Trace),
        _ if convert_trace(bytes).is_ok() => Some(Kind::OldTrace),
        [_, _, rest @ ..] if begins_trace(rest) => Some(Kind::Stream),
        _ if is_text(bytes) => kind_of_text(bytes),
        _ if looks_captured(bytes) => Some(Kind::Capture),
        _ => None,
    }
}

/// What a name's ending says.
fn kind_by_name(name: &str) -> Option<Kind> {
    let (_, ending) = name.rsplit_once('.')?;
    Some(match ending.to_ascii_lowercase().as_str() {
        "trace" => Kind::Trace,
        "script" => Kind::Script,
        "shelf" => Kind::Shelf,
        "sheet" => Kind::Sheet,
        "capture" => Kind::Capture,
        "listing" => Kind::Listing,
        "sr" => Kind::Zip,
        "vcd" => Kind::Vcd,
        "csv" => Kind::Csv,
        _ => return None,
    })
}

/// A trace that runs; or the beginning of one, of which the rest may be missing or wrong: its pins have
/// an address, and its first event is of a kind.
fn begins_trace(bytes: &[u8]) -> bool {
    if run_trace(bytes, &mut vec![0; 4 * MOST_EVENTS]).is_ok() {
        return true;
    }
    let &[4, ad3, ad2, ad1, ad0, low, high, kind, ..] = bytes else {
        return false;
    };
    let events = usize::from(low) + 256 * usize::from(high);
    let strapped = Pins::from([ad3, ad2, ad1, ad0]).address().is_ok();
    strapped && (1..=MOST_EVENTS).contains(&events) && kind <= 9
}

/// True of text that is of no other kind than a sheet's text, or of none.
pub fn is_plain(bytes: &[u8]) -> bool {
    is_text(bytes) && matches!(kind_of(bytes), None | Some(Kind::SheetText))
}

fn is_text(bytes: &[u8]) -> bool {
    let control = |byte: &u8| *byte < b' ' && !b"\t\r\n\x0C".contains(byte);
    !bytes.iter().any(|byte| control(byte) || *byte == 0x7F)
}

/// What a text looks like, by its first line that says something.
fn kind_of_text(bytes: &[u8]) -> Option<Kind> {
    let text = String::from_utf8_lossy(bytes);
    let text = text.trim_start_matches('\u{FEFF}').trim_start();
    let first = text.lines().next().unwrap_or_default().trim_end();
    let begins = |words: &[&str]| words.iter().any(|word| text.starts_with(word));
    match () {
        () if begins(&[kept::HEAD]) => Some(Kind::Totals),
        () if begins(&VCD) => Some(Kind::Vcd),
        () if begins(&["<svg", "<?xml"]) => Some(Kind::Picture),
        () if is_listing(first) => Some(Kind::Listing),
        // sigrok begins with comments, which have a semicolon.
        () if begins(&["; CSV", ";CSV"]) => Some(Kind::Csv),
        // Before CSV, since a box's name has commas.
        () if form::begins_with_box(text) => Some(Kind::SheetText),
        () => kind_of_lines(text.as_bytes())
            .or_else(|| (first.matches(',').count() >= 2).then_some(Kind::Csv)),
    }
}

/// The address and the count of events, or a refusal, as a listing has them first.
fn is_listing(line: &str) -> bool {
    let hex = |word: &str, digits: usize| {
        word.len() == digits && word.bytes().all(|byte| byte.is_ascii_hexdigit())
    };
    let refused = line.strip_prefix('R').is_some_and(|number| number.parse::<u8>().is_ok());
    refused || line.split_once(' ').is_some_and(|(address, count)| hex(address, 2) && hex(count, 4))
}

/// A script, one for a shelf, or a shelf file, by its first line that is not empty. A script is for a
/// shelf if a line has a name, be it the first or not.
fn kind_of_lines(text: &[u8]) -> Option<Kind> {
    let mut first = None;
    let mut named = false;
    // No line is refused: one that cannot be read is of no kind.
    let _ = each_line(text, |words| {
        if !words.is_empty() {
            let kind = kind_of_line(words).ok();
            named |= kind == Some(Kind::ShelfScript);
            first = first.or(Some(kind));
        }
        Ok(())
    });
    match first.flatten() {
        Some(Kind::Script) if named => Some(Kind::ShelfScript),
        kind => kind,
    }
}

/// The kind of file that has such a line.
fn kind_of_line(words: &mut Words) -> Result<Kind, Unread> {
    let first = words.word().unwrap_or_default();
    match first.to_ascii_lowercase().as_str() {
        "at" | "place" => {
            words.next("a name", |word| u8::from_str_radix(word, 16).ok())?;
            let event = words.word().unwrap_or_default();
            words.events(event, "an event").map(|_| Kind::ShelfScript)
        }
        "pins" => words.byte().map(|_| Kind::Script),
        "part" => words.part().map(|_| Kind::Script),
        word if u8::from_str_radix(word, 16).is_ok() => words.part().map(|_| Kind::Shelf),
        _ => words.events(first, "an event").map(|_| Kind::Script),
    }
}

/// Samples in which transfers are seen. In a capture most samples repeat the one before.
fn looks_captured(bytes: &[u8]) -> bool {
    let same = bytes.windows(2).filter(|pair| pair[0] & 0x0F == pair[1] & 0x0F).count();
    2 * same > bytes.len() && Seen::of(bytes).transfers() > 0
}
