//! A session of sigrok (`.sr`), which `sigrok-cli` turns into VCD while it is read.

use std::fs::File;
use std::io::{self, ErrorKind, Read};
use std::path::Path;
use std::process::{Child, ChildStdout, Command, Stdio};

use crate::failure::Failure;
use crate::files::name_of;
use crate::telling::shown;

/// What is told of a session that comes where no program can be asked for it.
pub const TOLD: &str =
    "it is a sigrok session (.sr), or another zip file: save it as a file and name that, or pipe it \
     through sigrok-cli -i FILE.sr -O vcd";

const PROGRAM: &str = "sigrok-cli";

/// True of a file that begins as a session does.
pub fn is_session(path: &Path) -> bool {
    let mut start = vec![];
    let read = File::open(path).and_then(|file| file.take(4).read_to_end(&mut start));
    read.is_ok() && start == b"PK\x03\x04"
}

/// A session as VCD, from the program while it runs. What the program says of it goes to standard error.
pub struct Session {
    name: String,
    child: Child,
    out: ChildStdout,
}

/// Has the program read a session, or tells the command that converts it.
pub fn open(path: &Path) -> Result<Session, Failure> {
    let name = name_of(path);
    let file = shown(&path.to_string_lossy());
    // Behind a folder's name, a name that begins with a sign is no option.
    let here = Path::new(".").join(path);
    let mut command = Command::new(PROGRAM);
    command.arg("-i").arg(if path.is_absolute() { path } else { &here }).args(["-O", "vcd"]);
    command.stdin(Stdio::null()).stdout(Stdio::piped());
    let mut child = command.spawn().map_err(|error| match error.kind() {
        ErrorKind::NotFound => Failure::Refused(format!(
            "{name}: it is a sigrok session, and {PROGRAM} is not installed here; where it is, this \
             converts it: {PROGRAM} -i {file} -O vcd -o {file}.vcd"
        )),
        _ => Failure::Wrong(format!("{PROGRAM} cannot be run: {error}")),
    })?;
    match child.stdout.take() {
        Some(out) => Ok(Session { name, child, out }),
        None => Err(Failure::Wrong(format!("{PROGRAM} cannot be read from"))),
    }
}

impl Session {
    /// After its end: whether the program took it.
    pub fn end(&mut self) -> Result<(), Failure> {
        match self.child.wait() {
            Ok(status) if status.success() => Ok(()),
            Ok(status) => {
                let name = &self.name;
                Err(Failure::Refused(format!("{name}: {PROGRAM} does not take it ({status})")))
            }
            Err(error) => Err(Failure::Wrong(format!("{PROGRAM} cannot be waited for: {error}"))),
        }
    }
}

impl Read for Session {
    fn read(&mut self, room: &mut [u8]) -> io::Result<usize> {
        self.out.read(room)
    }
}

/// Nobody reads on, so the program is not left running.
impl Drop for Session {
    fn drop(&mut self) {
        // One that has ended already cannot be ended, which is no fault.
        let _ = self.child.kill();
        let _ = self.child.wait();
    }
}
