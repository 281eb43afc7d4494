//! Standard output, standard error, and the progress line.

use std::io::{self, IsTerminal, Write};
use std::time::{Duration, Instant};

pub const FINE: u8 = 0;
pub const REFUSED: u8 = 1;
pub const TROUBLE: u8 = 2;

/// Writes to standard error; if that fails there is nobody to tell.
pub fn complain(text: &str) {
    let _ = io::stderr().write_all(text.as_bytes());
}

/// Writes to standard output, and gives the status.
pub fn write_plain(bytes: &[u8]) -> u8 {
    let mut out = io::stdout().lock();
    match out.write_all(bytes).and_then(|()| out.flush()) {
        Ok(()) => FINE,
        Err(error) => {
            if error.kind() != io::ErrorKind::BrokenPipe {
                complain(&format!("hirvelan: standard output can't be written: {}\n", crate::files::told(&error)));
            }
            TROUBLE
        }
    }
}

/// A run is long from here on.
const LONG: Duration = Duration::from_millis(400);
const PAUSE: Duration = Duration::from_millis(100);

/// Everything that is said in a run, and the worst status.
pub struct Output {
    status: u8,
    closed: bool,
    shows: bool,
    shown: bool,
    next: Instant,
}

impl Output {
    pub fn new() -> Output {
        // for the tests, which have no long runs
        let now = std::env::var_os("HIRVELAN_PROGRESS").is_some_and(|v| v == "now");
        let wait = if now { Duration::ZERO } else { LONG };
        Output { status: FINE, closed: false, shows: io::stderr().is_terminal(), shown: false, next: Instant::now() + wait }
    }

    /// The worst status counts.
    pub fn set(&mut self, status: u8) {
        self.status = self.status.max(status);
    }

    pub fn status(&self) -> u8 {
        self.status
    }

    /// Whether standard output takes no more: the run can end.
    pub fn is_closed(&self) -> bool {
        self.closed
    }

    pub fn write(&mut self, bytes: &[u8]) {
        self.clear();
        if !self.closed && write_plain(bytes) != FINE {
            self.closed = true;
            self.set(TROUBLE);
        }
    }

    pub fn complain(&mut self, text: &str) {
        self.clear();
        complain(text);
    }

    /// One line that is written over: how many of how many files, on a terminal, in a long run.
    pub fn progress(&mut self, done: usize, all: usize) {
        if self.shows && Instant::now() >= self.next {
            complain(&format!("\r\x1b[K{done} of {all} files"));
            self.shown = true;
            self.next = Instant::now() + PAUSE;
        }
    }

    pub fn clear(&mut self) {
        if self.shown {
            complain("\r\x1b[K");
            self.shown = false;
        }
    }
}
