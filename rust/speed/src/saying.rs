//! Lines on standard output. Where nobody reads them any more, as after `| head`, the program ends.

use std::io::Write;

pub fn say(line: &str) {
    if writeln!(std::io::stdout(), "{line}").is_err() {
        std::process::exit(0);
    }
}
