//! What `--version` says: the tool's version, and of which commit and by which kit the library is that it
//! was built with.

use gunwaleish::library_identity;

/// The tool with its version, as every output names it.
pub const TOOL: &str = concat!("gunwaleish ", env!("CARGO_PKG_VERSION"));

/// The library that is linked.
pub fn library() -> String {
    let library = library_identity();
    format!("commit {}, for {}", library.commit, library.machine)
}

/// What proved it.
pub fn proved_by() -> String {
    format!("kit {}", library_identity().kit)
}

/// All of it, a line each. The first is the tool's alone, for scripts that look no further.
pub fn text() -> String {
    format!("{TOOL}\nlibrary: {}\nproved by: {}\n", library(), proved_by())
}
