//! How far a long count is, on a terminal alone.

use std::io::{self, IsTerminal, Write};
use std::sync::atomic::{AtomicUsize, Ordering};

/// It is said after so many traces each time.
const EACH: usize = 256;

pub struct Progress {
    /// How many there are, if that is known.
    all: Option<usize>,
    done: AtomicUsize,
    shown: bool,
}

impl Progress {
    pub fn new(all: Option<usize>) -> Progress {
        Progress { all, done: AtomicUsize::new(0), shown: io::stderr().is_terminal() }
    }

    /// One trace more is done.
    pub fn one_more(&self) {
        let done = self.done.fetch_add(1, Ordering::Relaxed) + 1;
        if self.shown && done.is_multiple_of(EACH) {
            self.say(done);
        }
    }

    /// All are done.
    pub fn end(&self) {
        let done = self.done.load(Ordering::Relaxed);
        if self.shown && done >= EACH {
            self.say(done);
            let _ = writeln!(io::stderr());
        }
    }

    fn say(&self, done: usize) {
        let all = self.all.map_or(String::new(), |all| format!(" of {all}"));
        let _ = write!(io::stderr(), "\r{done}{all} traces");
    }
}
