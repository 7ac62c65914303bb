//! What `--version` says: the version that the file VERSION gives, and what stands beside the library.

mod common;

use common::{code, run, said, text, told};

use gunwaleish::library_identity;
use gunwaleish_tool::version::TOOL;

#[test]
fn the_version_is_that_of_the_file() {
    assert_eq!(format!("{TOOL}\n"), format!("gunwaleish {}", text("VERSION")));
}

#[test]
fn the_version_is_told_with_the_library() {
    let library = library_identity();
    let expected = format!(
        "{TOOL}\nlibrary: commit {}, for {}\nproved by: kit {}\n",
        library.commit, library.machine, library.kit
    );
    for word in ["--version", "-V"] {
        let output = run(&[word]);
        assert_eq!((code(&output), said(&output)), (0, String::new()), "{word}");
        assert_eq!(told(&output), expected, "{word}");
    }
}

/// A script that looks at the first line alone has the tool and its version.
#[test]
fn the_first_line_is_the_tools_alone() {
    assert_eq!(told(&run(&["--version"])).lines().next(), Some(TOOL));
}
