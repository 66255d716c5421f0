//! The range of a property: a class, or the mark Literal.

use crate::Refusal;
use std::cmp::Ordering;

/// The mark Literal, in a word, a ticket or an image.
pub(crate) const MARK: u8 = 1;

/// What the values of a property are. In a word, a ticket or an image it is one id, the mark for literals, so
/// no class of a range has id 1. Ranges are ordered by that id.
///
/// ```
/// use vimelosa_host::{Fact, Graph, Range, Refusal, Ticket};
/// let (machine, port, connected_to, serial_number) = (2, 3, 10, 11);
/// let mut graph = Graph::fresh();
/// graph.apply(Ticket::insert_property(connected_to, machine, Range::class(port)?))?;
/// graph.apply(Ticket::insert_property(serial_number, machine, Range::Literal))?;
/// assert!(graph.has(Fact::Range { property: connected_to, range: Range::class(port)? }));
/// assert!(graph.has(Fact::Range { property: serial_number, range: Range::Literal }));
/// # Ok::<(), Refusal>(())
/// ```
#[derive(Clone, Copy, PartialEq, Eq, Hash, Debug)]
pub enum Range {
    /// Literals.
    Literal,
    /// Members of a class. Outside this crate [`Range::class`] alone makes it, so that the class is never the
    /// mark; it is matched as `Range::Class { class, .. }`.
    #[non_exhaustive]
    Class {
        /// The class, whose id is not 1.
        class: u8,
    },
}

impl Range {
    /// The members of a class.
    ///
    /// ```
    /// use vimelosa_host::{Range, Refusal};
    /// assert!(matches!(Range::class(3), Ok(Range::Class { class: 3, .. })));
    /// assert_eq!(Range::class(1), Err(Refusal::BadIds));
    /// ```
    ///
    /// The variant itself cannot be written:
    ///
    /// ```compile_fail
    /// let range = vimelosa_host::Range::Class { class: 1 };
    /// ```
    ///
    /// # Errors
    ///
    /// [`Refusal::BadIds`] for id 1, as in a ticket: the mark is no class.
    pub fn class(class: u8) -> Result<Range, Refusal> {
        match Range::of_id(class) {
            Range::Literal => Err(Refusal::BadIds),
            range => Ok(range),
        }
    }

    /// The range of an id in a body or a ticket.
    pub(crate) fn of_id(id: u8) -> Range {
        match id {
            MARK => Range::Literal,
            class => Range::Class { class },
        }
    }

    /// The id in a word or a ticket.
    pub(crate) fn id(self) -> u8 {
        match self {
            Range::Literal => MARK,
            Range::Class { class } => class,
        }
    }
}

impl PartialOrd for Range {
    fn partial_cmp(&self, other: &Range) -> Option<Ordering> {
        Some(self.cmp(other))
    }
}

impl Ord for Range {
    fn cmp(&self, other: &Range) -> Ordering {
        self.id().cmp(&other.id())
    }
}
