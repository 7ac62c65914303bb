//! Makes `docs/PROMISES.md` of contracts and edits, and holds these to each other; holds `docs/IMAGE.md` to its definition. [`faults`] and
//! [`image_faults`] tell in sentences where something differs; a repository in order has none. [`unsealed`] tells of proofs that open the rules
//! of a kind of part. [`statement_faults`] tells of statements that no record holds, or that `docs/STATEMENTS.md` does not list.
//! [`sentence_faults`] tells of names in `docs/SENTENCES.md` that are not there, and [`rule_faults`] of such in `docs/RULES.md`.
//! [`definition_faults`] tells of files of definitions that `docs/DEFINITIONS.md` does not have, in reading order and with their counts of lines.
//! [`map_faults`] tells what README's map lacks, and [`link_faults`] what pages name that is not there. [`version_faults`] tells of places with
//! another version than the file VERSION has. [`circles`] tells of Rust files that use each other in a circle, and [`long_functions`] of functions
//! that are too long.

mod arrows;
mod calls;
mod circles;
mod code;
mod definitions;
mod edits;
mod flows;
mod groups;
mod image;
mod lengths;
mod links;
mod map;
mod modules;
mod names;
mod picture;
mod plan;
mod promises;
mod rules;
mod sealed;
mod sentences;
mod stated;
mod statements;
mod svg;
mod tables;
mod tree;
mod version;

pub use circles::circles;
pub use definitions::{counted, definition_faults, DEFINITIONS};
pub use groups::CRATES;
pub use image::{image_faults, LAYOUT, PAGE};
pub use lengths::{long_files, long_functions, wide_lines, LONGEST, LONGEST_FILE, WIDEST};
pub use links::link_faults;
pub use map::{map_faults, CONTRIBUTING, INDEX, README};
pub use picture::{house_picture, HOUSE};
pub use promises::{faults, promises_page, LIST, TEMPLATE};
pub use rules::{rule_faults, RULES};
pub use sealed::unsealed;
pub use sentences::{sentence_faults, SENTENCES};
pub use statements::{statement_faults, STATEMENTS};
pub use tree::Tree;
pub use version::{version_faults, DEFINITION, HEADER, PACKAGES, VERSION};
