//! Facts and tickets written in words.

use crate::words::{Plain, Vocabulary, DELETE, INSERT, TICKET};
use crate::{Asked, Fact, Kind, Ticket};
use std::fmt::{Display, Formatter, Result};

/// What [`Names::show`](crate::Names::show) shows: a [`Fact`] or a [`Ticket`].
pub trait Named: Written {}

impl Named for Fact {}

impl Named for Ticket {}

/// What is written in words, with the names of a vocabulary. It is not exported, so [`Named`] is for facts
/// and tickets alone.
pub trait Written {
    /// Writes the words.
    fn write(&self, f: &mut Formatter<'_>, vocabulary: &dyn Vocabulary) -> Result;
}

impl Written for Fact {
    fn write(&self, f: &mut Formatter<'_>, vocabulary: &dyn Vocabulary) -> Result {
        let kind = self.kind();
        write!(f, "{kind}")?;
        write_ids(f, &self.ids()[..kind.width()], vocabulary)
    }
}

impl Written for Ticket {
    fn write(&self, f: &mut Formatter<'_>, vocabulary: &dyn Vocabulary) -> Result {
        match self.asks() {
            Ok(Asked::Insert(fact)) => {
                write!(f, "{INSERT} ")?;
                fact.write(f, vocabulary)
            }
            Ok(Asked::InsertProperty { property, domain, range }) => {
                write!(f, "{INSERT} {}", Kind::Property)?;
                write_ids(f, &[property, domain, range.id()], vocabulary)
            }
            Ok(Asked::Delete(fact)) => {
                write!(f, "{DELETE} ")?;
                fact.write(f, vocabulary)
            }
            Err(_) => {
                write!(f, "{TICKET} ")?;
                self.bytes().into_iter().try_for_each(|byte| write!(f, "{byte:02x}"))
            }
        }
    }
}

fn write_ids(f: &mut Formatter<'_>, ids: &[u8], vocabulary: &dyn Vocabulary) -> Result {
    for id in ids {
        match vocabulary.name_of(*id) {
            Some(name) => write!(f, " {name}")?,
            None => write!(f, " {id}")?,
        }
    }
    Ok(())
}

/// The kind's word.
///
/// ```
/// use vimelosa_host::Kind;
/// assert_eq!(Kind::Subclass.to_string(), "subclass");
/// ```
impl Display for Kind {
    fn fmt(&self, f: &mut Formatter<'_>) -> Result {
        f.pad(self.word())
    }
}

/// The kind's word and the ids in their order; the mark as `Literal`.
///
/// ```
/// use vimelosa_host::{Fact, Range};
/// assert_eq!(Fact::Value { individual: 4, value: 6, property: 5 }.to_string(), "value 4 6 5");
/// assert_eq!(Fact::Range { property: 5, range: Range::Literal }.to_string(), "range 5 Literal");
/// ```
impl Display for Fact {
    fn fmt(&self, f: &mut Formatter<'_>) -> Result {
        self.write(f, &Plain)
    }
}

/// What is asked, or the bytes in hexadecimal where they cannot be read.
///
/// ```
/// use vimelosa_host::{Range, Ticket};
/// assert_eq!(Ticket::insert_property(5, 2, Range::Literal).to_string(), "insert property 5 2 Literal");
/// assert_eq!(Ticket::delete_member(4, 3).to_string(), "delete member 4 3");
/// assert_eq!(Ticket::insert_exclusive(5).to_string(), "insert exclusive 5");
/// assert_eq!(Ticket::of_bytes([1, 7, 2, 0, 0]).to_string(), "ticket 0107020000");
/// ```
impl Display for Ticket {
    fn fmt(&self, f: &mut Formatter<'_>) -> Result {
        self.write(f, &Plain)
    }
}
