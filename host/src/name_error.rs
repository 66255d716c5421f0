//! Why a name, or a file of names, is not taken.

use std::error::Error;
use std::fmt;

/// What a name is.
const NAMES: &str =
    "A name has 1 to 255 bytes, not digits alone, no white space, control or invisible characters, no # at \
     the start.";

/// Why a name is not taken. More reasons may follow, so a `match` on it has an arm for the others.
#[derive(Clone, PartialEq, Eq, Hash, Debug)]
#[non_exhaustive]
pub enum NameError {
    /// A line of a file is not an id, a tab and a name.
    BadLine,
    /// An id is not a number from 0 to 255.
    BadId,
    /// The id has a name.
    DoubledId(u8),
    /// The name has an id.
    DoubledName(String),
    /// A name is not of the form that [`Names`](crate::Names) tells.
    BadName,
    /// Every id has a name or is taken.
    NoFreeId,
}

/// What is wrong, in a sentence.
///
/// ```
/// use vimelosa_host::NameError;
/// assert_eq!(NameError::DoubledId(2).to_string(), "Id 2 has a name already.");
/// ```
impl fmt::Display for NameError {
    fn fmt(&self, f: &mut fmt::Formatter<'_>) -> fmt::Result {
        match self {
            NameError::BadLine => write!(f, "The line is not an id, a tab and a name."),
            NameError::BadId => write!(f, "The id is not a number from 0 to 255."),
            NameError::DoubledId(id) => write!(f, "Id {id} has a name already."),
            NameError::DoubledName(name) => write!(f, "The name {name} has an id already."),
            NameError::BadName => write!(f, "{NAMES}"),
            NameError::NoFreeId => write!(f, "No id is free: each has a name or is taken."),
        }
    }
}

impl Error for NameError {}

/// Where and why a file of names cannot be read.
#[derive(Clone, PartialEq, Eq, Hash, Debug)]
pub struct NamesError {
    /// The line, counted from 1.
    pub line: usize,
    /// What is wrong with it.
    pub reason: NameError,
}

/// The line and what is wrong with it.
///
/// ```
/// use vimelosa_host::{NameError, NamesError};
/// let error = NamesError { line: 3, reason: NameError::BadId };
/// assert_eq!(error.to_string(), "line 3: The id is not a number from 0 to 255.");
/// ```
impl fmt::Display for NamesError {
    fn fmt(&self, f: &mut fmt::Formatter<'_>) -> fmt::Result {
        write!(f, "line {}: {}", self.line, self.reason)
    }
}

impl Error for NamesError {}
