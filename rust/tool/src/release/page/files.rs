//! What was read: each file with its size, its SHA-256 and the time of its last change.

use super::html::{code, paragraph, section, Cell, Table};
use super::time::utc;
use crate::release::{Bundle, Examined, Read};
use crate::words::count;

pub fn written(examined: &Examined) -> String {
    let bundle = &examined.bundle;
    let mut table = Table::new("files", &["File", "Read as", "Size", "Last changed", "SHA-256"]);
    for (what, read) in read_as(bundle) {
        table.row(
            Cell::html(code(&read.name)),
            &[
                Cell::words(&what),
                Cell::words(&count(read.size as usize, "byte")),
                Cell::words(&read.changed.map_or("not known".to_string(), utc)),
                Cell::html(code(&read.sha256)).look("hash"),
            ],
        );
    }
    let caption = "Every file that was read. sha256sum gives the same digits for the same file.";
    section("read", "What was read", &(table.finish(caption) + &not_read(bundle)))
}

/// Every file, with what it stands for.
fn read_as(bundle: &Bundle) -> Vec<(String, &Read)> {
    let mut all = vec![
        ("board sheet".to_string(), &bundle.board),
        ("house sheet".to_string(), &bundle.house),
    ];
    for (read, sheet) in bundle.texts.iter().zip(["board", "house"]) {
        all.extend(read.iter().map(|read| (format!("text of the {sheet} sheet"), read)));
    }
    let scripts = bundle.scripts.iter().flatten().enumerate();
    all.extend(scripts.map(|(m, read)| (format!("start-up script of controller {m}"), read)));
    if let Some(shelf) = &bundle.shelf {
        all.push(("shelf".to_string(), &shelf.shelf));
        all.extend(shelf.scripts.iter().map(|read| ("script for the shelf".to_string(), read)));
    }
    all.extend(bundle.traces.iter().map(|read| ("trace of the bench".to_string(), read)));
    all
}

/// Files of the folder that were left alone.
fn not_read(bundle: &Bundle) -> String {
    if bundle.others.is_empty() {
        return String::new();
    }
    let names: Vec<String> = bundle.others.iter().map(|name| code(name)).collect();
    paragraph("These are in the folder too, and were not read:")
        + &format!("<p>{}</p>\n", names.join(", "))
}
