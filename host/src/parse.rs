//! Facts and tickets read from words.

use crate::ticket;
use crate::words::{id_of_digits, Plain, Vocabulary, DELETE, INSERT, PROPERTY_ROLES, TICKET};
use crate::{Fact, Kind, Ticket};
use std::error::Error;
use std::fmt;
use std::str::FromStr;

/// So many characters of what was read are shown.
const SHOWN: usize = 60;

/// Words that are no fact, ticket or kind: what was read, and what was expected in its place.
///
/// ```
/// use vimelosa_host::Ticket;
/// let error = "instert class 2".parse::<Ticket>().unwrap_err();
/// assert_eq!(error.to_string(), "read `instert`, expected insert, delete or ticket");
/// ```
#[derive(Clone, PartialEq, Eq, Hash, Debug)]
pub struct ParseError {
    read: String,
    expected: String,
}

impl ParseError {
    pub(crate) fn new(read: &str, expected: &str) -> ParseError {
        let mut shown: String = read.chars().take(SHOWN).flat_map(char::escape_debug).collect();
        if read.chars().nth(SHOWN).is_some() {
            shown.push('…');
        }
        ParseError { read: shown, expected: expected.to_string() }
    }
}

impl fmt::Display for ParseError {
    fn fmt(&self, f: &mut fmt::Formatter<'_>) -> fmt::Result {
        match self.read.as_str() {
            "" => write!(f, "read nothing, expected {}", self.expected),
            read => write!(f, "read `{read}`, expected {}", self.expected),
        }
    }
}

impl Error for ParseError {}

/// Reads a ticket; a word is an id or a name of the vocabulary.
pub(crate) fn read_ticket(text: &str, vocabulary: &dyn Vocabulary) -> Result<Ticket, ParseError> {
    let words: Vec<&str> = text.split_whitespace().collect();
    let (word, operation) = match words.first() {
        Some(&INSERT) => (INSERT, ticket::INSERT),
        Some(&DELETE) => (DELETE, ticket::DELETE),
        Some(&TICKET) => return read_bytes(&words),
        other => return Err(ParseError::new(other.unwrap_or(&""), "insert, delete or ticket")),
    };
    let kinds: Vec<Kind> = Kind::ALL.into_iter().filter(|kind| kind.has_tickets()).collect();
    let kind = read_kind(words.get(1), &kinds)?;
    let roles = if (word, kind) == (INSERT, Kind::Property) { PROPERTY_ROLES } else { kind.roles() };
    let ids = read_ids(&words, &[word, kind.word(), roles].join(" "), vocabulary)?;
    let ticket = Ticket::of(operation, kind, ids);
    ticket.asks().map(|_| ticket).map_err(|_| misplaced_mark(&words))
}

fn read_kind(word: Option<&&str>, kinds: &[Kind]) -> Result<Kind, ParseError> {
    let word = word.copied().unwrap_or_default();
    let expected = || {
        let kinds: Vec<&str> = kinds.iter().map(|kind| kind.word()).collect();
        format!("a kind: {}", kinds.join(", "))
    };
    let found = kinds.iter().copied().find(|kind| kind.word() == word);
    found.ok_or_else(|| ParseError::new(word, &expected()))
}

/// The ids of words that have a form: its words in capitals stand for ids. Unused ids are 0.
fn read_ids(words: &[&str], form: &str, vocabulary: &dyn Vocabulary) -> Result<[u8; 3], ParseError> {
    let expected: Vec<&str> = form.split(' ').collect();
    if words.len() != expected.len() {
        return Err(ParseError::new(&words.join(" "), &format!("`{form}`")));
    }
    let mut ids = [0; 3];
    let roles = expected.iter().zip(words).filter(|(role, _)| role.starts_with(char::is_uppercase));
    for (id, (_, word)) in ids.iter_mut().zip(roles) {
        let read = id_of_digits(word).or_else(|| vocabulary.id_of(word));
        *id = read.ok_or_else(|| ParseError::new(word, vocabulary.expected()))?;
    }
    Ok(ids)
}

/// The mark stands where an id is asked.
fn misplaced_mark(words: &[&str]) -> ParseError {
    ParseError::new(&words.join(" "), "Literal, which is id 1, only as a range")
}

/// A ticket in hexadecimal.
fn read_bytes(words: &[&str]) -> Result<Ticket, ParseError> {
    let is_ticket = |digits: &str| {
        digits.len() == 2 * ticket::LENGTH && digits.bytes().all(|digit| digit.is_ascii_hexdigit())
    };
    match words {
        [_, digits] if is_ticket(digits) => {
            let number = u64::from_str_radix(digits, 16).expect("ten digits have 40 bits");
            let [_, _, _, bytes @ ..] = number.to_be_bytes();
            Ok(Ticket::of_bytes(bytes))
        }
        _ => Err(ParseError::new(&words.join(" "), "`ticket` and ten hexadecimal digits")),
    }
}

/// The kind of a word.
///
/// ```
/// use vimelosa_host::Kind;
/// assert_eq!("subclass".parse(), Ok(Kind::Subclass));
/// let error = "clas".parse::<Kind>().unwrap_err().to_string();
/// assert!(error.starts_with("read `clas`, expected a kind: class, property, "));
/// ```
impl FromStr for Kind {
    type Err = ParseError;

    fn from_str(word: &str) -> Result<Kind, ParseError> {
        read_kind(Some(&word), &Kind::ALL)
    }
}

/// The fact that its [`Display`](std::fmt::Display) writes: a kind's word and its ids, with any white space
/// between. What no graph can have is not read: id 1, `Literal`, stands as a range alone.
///
/// ```
/// use vimelosa_host::Fact;
/// assert_eq!("subclass 3 2".parse(), Ok(Fact::Subclass { class: 3, superclass: 2 }));
/// let error = "subclass 3".parse::<Fact>().unwrap_err();
/// assert_eq!(error.to_string(), "read `subclass 3`, expected `subclass CLASS SUPERCLASS`");
/// ```
impl FromStr for Fact {
    type Err = ParseError;

    fn from_str(text: &str) -> Result<Fact, ParseError> {
        let words: Vec<&str> = text.split_whitespace().collect();
        let kind = read_kind(words.first(), &Kind::ALL)?;
        let [a, b, c] = read_ids(&words, &[kind.word(), kind.roles()].join(" "), &Plain)?;
        Fact::try_from(u32::from_be_bytes([kind.number(), a, b, c])).map_err(|_| misplaced_mark(&words))
    }
}

/// The ticket that its [`Display`](std::fmt::Display) writes, in words or in hexadecimal, with any white
/// space between:
///
/// ```text
/// insert property PROPERTY DOMAIN RANGE
/// delete property PROPERTY
/// insert | delete  class CLASS | individual INDIVIDUAL | literal LITERAL | subclass CLASS SUPERCLASS
///                | subproperty PROPERTY SUPERPROPERTY | member INDIVIDUAL CLASS
///                | value INDIVIDUAL VALUE PROPERTY | exclusive PROPERTY
/// ticket TEN-HEXADECIMAL-DIGITS
/// ```
///
/// ```
/// use vimelosa_host::{Range, Ticket};
/// assert_eq!("insert property 5 2 Literal".parse(), Ok(Ticket::insert_property(5, 2, Range::Literal)));
/// assert_eq!("ticket 0107020000".parse(), Ok(Ticket::of_bytes([1, 7, 2, 0, 0])));
/// let error = "insert class 300".parse::<Ticket>().unwrap_err();
/// assert_eq!(error.to_string(), "read `300`, expected an id from 0 to 255");
/// ```
impl FromStr for Ticket {
    type Err = ParseError;

    fn from_str(text: &str) -> Result<Ticket, ParseError> {
        read_ticket(text, &Plain)
    }
}
