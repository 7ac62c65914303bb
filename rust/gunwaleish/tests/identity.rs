//! Which library is linked: the crate says what stands beside the library, word for word, and `unknown` where nothing does.

use std::path::PathBuf;
use std::{env, fs};

use gunwaleish::library_identity;

#[test]
fn the_identity_is_what_stands_beside_the_library() {
    let folder = match env::var_os("GUNWALEISH_LIB_DIR") {
        Some(folder) => PathBuf::from(folder),
        None => PathBuf::from(env!("CARGO_MANIFEST_DIR")).join("../../build/lib"),
    };
    let unknown = "commit unknown\nkit unknown\nmachine unknown\n".to_string();
    let written = fs::read_to_string(folder.join("libgunwaleish.identity")).unwrap_or(unknown);
    let known = library_identity();
    let said = format!("commit {}\nkit {}\nmachine {}\n", known.commit, known.kit, known.machine);
    assert_eq!(said, written);
}
