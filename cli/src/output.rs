//! Standard output and standard error, the exit status, and the progress line between them.

use crate::files::Error;
use crate::library::Answer;
use crate::names::shown;
use std::fs::File;
use std::io::{self, IsTerminal, Write};
use std::os::fd::AsFd;
use std::time::{Duration, Instant};

/// How it ended, as the exit status has it.
#[derive(Clone, Copy, Debug, PartialEq, Eq)]
pub enum Status {
    Good = 0,
    Refused = 1,
    Failed = 2,
}

impl Status {
    pub fn of(answer: &Answer) -> Status {
        match answer {
            Answer::Accepted(_) => Status::Good,
            Answer::Refused(_) => Status::Refused,
        }
    }
}

/// Says what went wrong, on standard error.
pub fn complain(why: &str) {
    // There is nothing left to tell if this fails.
    let _ = writeln!(io::stderr(), "tirfolma: {why}");
}

/// What is said of a file or folder that can't be read.
pub fn about(error: &Error) -> String {
    format!("{}: {}", shown(&error.path), error.why)
}

/// Writes the last text. The status is that of the answer only if it was printed.
pub fn finish(text: &str, status: Status) -> Status {
    if print(text) {
        status
    } else {
        Status::Failed
    }
}

/// Writes text to standard output, and tells whether that was possible. A reader that went away needs no word about it.
pub fn print(text: &str) -> bool {
    // As a file: what std has for it hides that it is not open for writing.
    let out = io::stdout().as_fd().try_clone_to_owned();
    match out.and_then(|out| File::from(out).write_all(text.as_bytes())) {
        Ok(()) => true,
        Err(e) => {
            if e.kind() != io::ErrorKind::BrokenPipe {
                complain(&format!("standard output: {}", crate::files::plain(&e)));
            }
            false
        }
    }
}

/// Writes texts, each error behind the text that it belongs to. Whether that was possible.
pub fn tell(said: impl IntoIterator<Item = (String, Option<String>)>) -> bool {
    let mut all = String::new();
    for (text, error) in said {
        all += &text;
        if let Some(error) = error {
            if !print(&std::mem::take(&mut all)) {
                return false;
            }
            complain(&error);
        }
    }
    all.is_empty() || print(&all)
}

/// A line on a terminal that says how far it is, once it has taken a second.
pub struct Progress {
    terminal: bool,
    began: Instant,
    shown: bool,
}

/// How often the line is written anew.
pub const TICK: Duration = Duration::from_millis(250);
const PATIENCE: Duration = Duration::from_secs(1);

impl Progress {
    pub fn new() -> Progress {
        Progress { terminal: io::stderr().is_terminal(), began: Instant::now(), shown: false }
    }

    pub fn show(&mut self, done: usize, all: usize) {
        if self.terminal && self.began.elapsed() >= PATIENCE {
            let _ = write!(io::stderr(), "\r\x1b[K{done} of {all} boards");
            self.shown = true;
        }
    }

    /// Takes the line away, so that something else can be written there.
    pub fn clear(&mut self) {
        if self.shown {
            let _ = write!(io::stderr(), "\r\x1b[K");
            self.shown = false;
        }
    }
}

impl Default for Progress {
    fn default() -> Self {
        Progress::new()
    }
}
