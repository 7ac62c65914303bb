//! Writes again what the pages have by computation: the counts of lines in `docs/DEFINITIONS.md`, and the picture of the house.

use house::{counted, house_picture, Tree, DEFINITIONS, HOUSE};
use std::fs;
use std::path::Path;
use std::process::ExitCode;

fn main() -> ExitCode {
    let tree = Tree::of_this_repository();
    let mut code = ExitCode::SUCCESS;
    for (path, text) in [(DEFINITIONS, counted(&tree)), (HOUSE, house_picture(&tree))] {
        if let Err(said) = write(&tree, path, text) {
            eprintln!("{path}: {said}");
            code = ExitCode::FAILURE;
        }
    }
    code
}

/// Writes a file if it is another, and says which.
fn write(tree: &Tree, path: &str, text: Option<String>) -> Result<(), String> {
    let text = text.ok_or("there is nothing to make it of")?;
    if tree.text(path) == Some(&text) {
        println!("{path} is as it should be");
        return Ok(());
    }
    let root = Path::new(env!("CARGO_MANIFEST_DIR")).join("../..");
    fs::write(root.join(path), text).map_err(|error| error.to_string())?;
    println!("{path} is written");
    Ok(())
}
