//! Prints `docs/PROMISES.md` as the repository has its contracts and edits now.

use house::{promises_page, Tree};

fn main() {
    print!("{}", promises_page(&Tree::of_this_repository()));
}
