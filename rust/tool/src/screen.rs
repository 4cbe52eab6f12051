//! Standard output and standard error.

use crate::failure::{Failure, fail};
use std::io::{self, ErrorKind, Write};
use std::os::raw::c_int;
use std::time::{Duration, Instant};

extern "C" {
    fn isatty(descriptor: c_int) -> c_int;
}

/// Standard output. A reader that went away is no error: what comes after is left unsaid.
#[derive(Default)]
pub struct Screen {
    gone: bool,
}

impl Screen {
    pub fn text(&mut self, text: &str) -> Result<(), Failure> {
        self.bytes(text.as_bytes())
    }

    pub fn bytes(&mut self, bytes: &[u8]) -> Result<(), Failure> {
        if self.gone {
            return Ok(());
        }
        let mut out = io::stdout();
        match out.write_all(bytes).and_then(|()| out.flush()) {
            Ok(()) => Ok(()),
            Err(error) if error.kind() == ErrorKind::BrokenPipe => {
                self.gone = true;
                Ok(())
            }
            Err(error) => fail(format!("standard output: {error}")),
        }
    }

    /// Whether a person looks at standard output.
    pub fn is_terminal(&self) -> bool {
        terminal(1)
    }
}

fn terminal(descriptor: c_int) -> bool {
    // SAFETY: isatty takes any number and only answers.
    unsafe { isatty(descriptor) == 1 }
}

/// A line on standard error. That nobody reads it is no error.
pub fn say(line: &str) {
    let _ = writeln!(io::stderr(), "{line}");
}

/// A line on standard error that says how far long work is, where a person looks at it.
pub struct Progress {
    what: &'static str,
    total: usize,
    next: Option<Instant>,
    shown: bool,
}

impl Progress {
    pub fn new(what: &'static str, total: usize) -> Progress {
        let next = if terminal(2) {
            Some(Instant::now() + Duration::from_millis(500))
        } else {
            None
        };
        let shown = false;
        Progress {
            what,
            total,
            next,
            shown,
        }
    }

    /// Says how much is done, a few times in a second.
    pub fn at(&mut self, done: usize) {
        let now = Instant::now();
        if self.next.map_or(false, |next| next <= now) {
            let _ = write!(
                io::stderr(),
                "\r{} {} of {}\x1b[K",
                self.what,
                done,
                self.total
            );
            self.next = Some(now + Duration::from_millis(200));
            self.shown = true;
        }
    }
}

impl Drop for Progress {
    fn drop(&mut self) {
        if self.shown {
            let _ = write!(io::stderr(), "\r\x1b[K");
        }
    }
}
