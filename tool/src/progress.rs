//! A line on standard error that tells how far a long list is, if that is a terminal.

use crate::text::grouped;
use std::io::{self, Write};

/// So many tickets are run between two lines of progress; a list that is not longer shows none.
const PIECE: usize = 4096;

/// So many tickets are run by one call of the library.
const LONGEST_PIECE: usize = 65_535;

pub struct Progress {
    total: usize,
    is_shown: bool,
}

impl Progress {
    /// Of a list of so many tickets.
    pub fn of(total: usize) -> Progress {
        Progress { total, is_shown: total > PIECE && rustix::termios::isatty(io::stderr()) }
    }

    /// How many tickets to run at once.
    pub fn piece(&self) -> usize {
        if self.is_shown {
            PIECE
        } else {
            LONGEST_PIECE
        }
    }

    pub fn show(&self, done: usize) {
        self.put(&format!("\r{} of {} tickets", grouped(done), grouped(self.total)));
    }

    /// Takes the line away.
    pub fn end(&self) {
        self.put("\r\x1b[K");
    }

    fn put(&self, text: &str) {
        if self.is_shown {
            // A terminal that went away takes the progress with it; the tickets are run all the same.
            let _ = io::stderr().write_all(text.as_bytes());
        }
    }
}
