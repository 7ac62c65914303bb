//! What stands after a command's name on the command line.

use std::collections::BTreeMap;
use std::path::PathBuf;

/// What stands after the command's name.
#[derive(Clone, Debug, Default, PartialEq, Eq)]
pub struct Arguments {
    /// The files, where `-` is standard input.
    pub files: Vec<PathBuf>,
    pub output: Option<PathBuf>,
    /// The command's own options that are there, each with the words after it.
    pub options: BTreeMap<&'static str, Vec<String>>,
    /// The same words as they came, of options that name files: a path need not be text.
    pub paths: BTreeMap<&'static str, Vec<PathBuf>>,
}
