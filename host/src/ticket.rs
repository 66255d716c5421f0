//! Tickets: what a caller asks of a graph, in five bytes.

use crate::range::MARK;
use crate::{Fact, Kind, Range, Refusal};
use std::fmt;

/// The operation of an insertion, its first byte.
pub(crate) const INSERT: u8 = 1;

/// The operation of a deletion.
pub(crate) const DELETE: u8 = 2;

/// The bytes of a ticket.
pub(crate) const LENGTH: usize = 5;

/// One insertion or deletion. An insertion brings its side effects with it and never deletes; a deletion
/// takes what can no longer stand. Id 1 is the mark Literal and names nothing: a ticket that has it as the id
/// of a class, property, individual or literal is refused with 7.
#[derive(Clone, Copy, PartialEq, Eq, Hash)]
#[must_use = "a ticket does nothing until a graph applies it"]
pub struct Ticket {
    bytes: [u8; LENGTH],
}

impl Ticket {
    /// A ticket as it came from elsewhere. Whether it is one is told when it is applied.
    ///
    /// ```
    /// use vimelosa_host::Ticket;
    /// assert_eq!(Ticket::of_bytes([1, 1, 2, 0, 0]), Ticket::insert_class(2));
    /// ```
    pub fn of_bytes(bytes: [u8; 5]) -> Ticket {
        Ticket { bytes }
    }

    /// The five bytes: operation, kind and three ids.
    ///
    /// ```
    /// use vimelosa_host::{Range, Ticket};
    /// assert_eq!(Ticket::insert_property(5, 2, Range::Literal).bytes(), [1, 2, 5, 2, 1]);
    /// assert_eq!(Ticket::delete_member(4, 3).bytes(), [2, 9, 4, 3, 0]);
    /// assert_eq!(Ticket::insert_exclusive(5).bytes(), [1, 11, 5, 0, 0]);
    /// ```
    pub fn bytes(self) -> [u8; 5] {
        self.bytes
    }

    pub(crate) fn of(operation: u8, kind: Kind, [a, b, c]: [u8; 3]) -> Ticket {
        Ticket::of_bytes([operation, kind.number(), a, b, c])
    }

    /// What the ticket asks, by its bytes alone. Whether a graph takes it is told when it is applied.
    ///
    /// ```
    /// use vimelosa_host::{Asked, Fact, Refusal, Ticket};
    /// let asked = Ticket::of_bytes([2, 9, 4, 3, 0]).asks();
    /// assert_eq!(asked, Ok(Asked::Delete(Fact::Member { individual: 4, class: 3 })));
    /// assert_eq!(Ticket::of_bytes([1, 7, 2, 0, 0]).asks(), Err(Refusal::BadKind));
    /// ```
    ///
    /// # Errors
    ///
    /// [`Refusal::BadOperation`], [`Refusal::BadKind`] or [`Refusal::BadIds`]: the bytes ask nothing.
    pub fn asks(self) -> Result<Asked, Refusal> {
        let [operation, kind, a, b, c] = self.bytes();
        if ![INSERT, DELETE].contains(&operation) {
            return Err(Refusal::BadOperation);
        }
        let kind = Kind::try_from(kind).ok().filter(|kind| kind.has_tickets()).ok_or(Refusal::BadKind)?;
        if (operation, kind) == (INSERT, Kind::Property) {
            return asked_property(a, b, Range::of_id(c));
        }
        let fact = Fact::try_from(u32::from_be_bytes([kind.number(), a, b, c]));
        let fact = fact.map_err(|_| Refusal::BadIds)?;
        Ok(if operation == INSERT { Asked::Insert(fact) } else { Asked::Delete(fact) })
    }
}

fn asked_property(property: u8, domain: u8, range: Range) -> Result<Asked, Refusal> {
    if [property, domain].contains(&MARK) {
        return Err(Refusal::BadIds);
    }
    Ok(Asked::InsertProperty { property, domain, range })
}

/// What a ticket asks of a graph.
#[derive(Clone, Copy, PartialEq, Eq, Hash, Debug)]
pub enum Asked {
    /// The fact is to be there, with what follows from it.
    Insert(Fact),
    /// The property is to be there, with its domain and its range.
    InsertProperty {
        /// The property.
        property: u8,
        /// Its domain, a class.
        domain: u8,
        /// Its range.
        range: Range,
    },
    /// The fact is to be gone, with what cannot stand without it.
    Delete(Fact),
}

impl Kind {
    /// Whether tickets insert and delete facts of the kind; domains and ranges come and go with their
    /// property.
    pub(crate) fn has_tickets(self) -> bool {
        !matches!(self, Kind::Domain | Kind::Range)
    }
}

/// As [`Ticket::of_bytes`].
impl From<[u8; 5]> for Ticket {
    fn from(bytes: [u8; 5]) -> Ticket {
        Ticket::of_bytes(bytes)
    }
}

/// The ticket of five bytes; others are refused with 4.
///
/// ```
/// use vimelosa_host::{Refusal, Ticket};
/// assert_eq!(Ticket::try_from(&[1, 1, 2, 0, 0][..]), Ok(Ticket::insert_class(2)));
/// assert_eq!(Ticket::try_from(&[1, 1, 2][..]), Err(Refusal::BadLength));
/// ```
impl TryFrom<&[u8]> for Ticket {
    type Error = Refusal;

    fn try_from(bytes: &[u8]) -> Result<Ticket, Refusal> {
        bytes.try_into().map(Ticket::of_bytes).map_err(|_| Refusal::BadLength)
    }
}

/// The words in which it is displayed.
///
/// ```
/// use vimelosa_host::Ticket;
/// assert_eq!(format!("{:?}", Ticket::insert_class(2)), "Ticket(insert class 2)");
/// ```
impl fmt::Debug for Ticket {
    fn fmt(&self, f: &mut fmt::Formatter<'_>) -> fmt::Result {
        write!(f, "Ticket({self})")
    }
}
