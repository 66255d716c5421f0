//! What a command ends with: an answer to be printed, or a failure to be said in one line.

use std::{fmt, io};

/// Exit status: done.
pub const DONE: u8 = 0;

/// Exit status: a ticket, an image or a text was refused, or a ticket not agreed.
pub const REFUSED: u8 = 1;

/// Exit status: the words of the command, or a file, cannot be used.
pub const UNUSABLE: u8 = 2;

/// What goes to standard output, a line for standard error, if there is one, and the exit status.
#[derive(Debug)]
pub struct Answer {
    pub output: Vec<u8>,
    pub note: Option<String>,
    pub status: u8,
}

impl Answer {
    pub fn of(output: impl Into<Vec<u8>>) -> Answer {
        Answer { output: output.into(), note: None, status: DONE }
    }

    pub fn with_note(self, note: Option<String>) -> Answer {
        Answer { note, ..self }
    }

    pub fn with_status(self, status: u8) -> Answer {
        Answer { status, ..self }
    }
}

/// One line for standard error: what is wrong, where, and what to do; and the exit status.
#[derive(Debug)]
pub struct Failure {
    what: String,
    place: String,
    advice: String,
    pub status: u8,
}

impl Failure {
    /// A sentence loses its full stop before the colon.
    pub fn new(what: impl fmt::Display, place: impl fmt::Display, advice: impl fmt::Display) -> Failure {
        let what = what.to_string().trim_end_matches('.').to_owned();
        let [what, place, advice] = [what, place.to_string(), advice.to_string()].map(one_line);
        Failure { what, place, advice, status: UNUSABLE }
    }

    pub fn with_status(self, status: u8) -> Failure {
        Failure { status, ..self }
    }
}

impl fmt::Display for Failure {
    fn fmt(&self, f: &mut fmt::Formatter<'_>) -> fmt::Result {
        write!(f, "vimelosa: {}: {}: {}", self.what, self.place, self.advice)
    }
}

/// What the system says, without its number.
pub fn reason(error: &io::Error) -> String {
    let text = error.to_string();
    text.split(" (os error").next().unwrap_or_default().to_owned()
}

/// A path or a word may have any characters; the message stays one line.
fn one_line(text: String) -> String {
    text.chars().map(|c| if c.is_control() { '?' } else { c }).collect()
}
