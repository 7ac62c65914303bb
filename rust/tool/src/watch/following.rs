//! A file that grows while it is read: its end is waited at.

use std::fs::File;
use std::io::{self, Read, Seek};
use std::path::Path;
use std::thread;
use std::time::{Duration, Instant};

/// How often an end is looked at again.
const EACH: Duration = Duration::from_millis(50);

/// A file that is over when nothing was added to it for so long.
pub struct Following {
    file: File,
    patience: Duration,
}

impl Following {
    pub fn open(path: &Path, patience: Duration) -> io::Result<Following> {
        Ok(Following { file: File::open(path)?, patience })
    }
}

impl Read for Following {
    fn read(&mut self, room: &mut [u8]) -> io::Result<usize> {
        let begun = Instant::now();
        loop {
            let length = self.file.read(room)?;
            if length > 0 || begun.elapsed() >= self.patience {
                return Ok(length);
            }
            if self.file.metadata()?.len() < self.file.stream_position()? {
                return Err(io::Error::other("it has become shorter while it was followed"));
            }
            thread::sleep(EACH);
        }
    }
}
