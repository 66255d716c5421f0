//! Tickets that insert.

use crate::ticket::INSERT;
use crate::{Kind, Range, Ticket};

/// Insertions.
impl Ticket {
    /// Makes a class.
    ///
    /// ```
    /// use vimelosa_host::{Fact, Graph, RESOURCE, Refusal, Ticket};
    /// let mut graph = Graph::fresh();
    /// graph.apply(Ticket::insert_class(2))?;
    /// assert!(graph.has(Fact::Subclass { class: 2, superclass: RESOURCE }));
    /// # Ok::<(), Refusal>(())
    /// ```
    pub fn insert_class(class: u8) -> Ticket {
        Ticket::of(INSERT, Kind::Class, [class, 0, 0])
    }

    /// Makes a property with its domain and its range; unknown classes come into being.
    ///
    /// ```
    /// use vimelosa_host::{Graph, Range, Refusal, Ticket};
    /// let mut graph = Graph::fresh();
    /// graph.apply(Ticket::insert_property(5, 2, Range::Literal))?;
    /// assert_eq!((graph.domain_of(5), graph.range_of(5)), (Some(2), Some(Range::Literal)));
    /// # Ok::<(), Refusal>(())
    /// ```
    pub fn insert_property(property: u8, domain: u8, range: Range) -> Ticket {
        Ticket::of(INSERT, Kind::Property, [property, domain, range.id()])
    }

    /// Makes an individual.
    ///
    /// ```
    /// use vimelosa_host::{Graph, RESOURCE, Refusal, Ticket};
    /// let mut graph = Graph::fresh();
    /// graph.apply(Ticket::insert_individual(4))?;
    /// assert!(graph.members_of(RESOURCE).eq([4]));
    /// # Ok::<(), Refusal>(())
    /// ```
    pub fn insert_individual(individual: u8) -> Ticket {
        Ticket::of(INSERT, Kind::Individual, [individual, 0, 0])
    }

    /// Makes a literal.
    ///
    /// ```
    /// use vimelosa_host::{Fact, Graph, Refusal, Ticket};
    /// let mut graph = Graph::fresh();
    /// graph.apply(Ticket::insert_literal(7))?;
    /// assert!(graph.has(Fact::Literal(7)));
    /// # Ok::<(), Refusal>(())
    /// ```
    pub fn insert_literal(literal: u8) -> Ticket {
        Ticket::of(INSERT, Kind::Literal, [literal, 0, 0])
    }

    /// Puts a class under another; unknown ones come into being.
    ///
    /// ```
    /// use vimelosa_host::{Graph, Refusal, Ticket};
    /// let mut graph = Graph::fresh();
    /// graph.apply(Ticket::insert_subclass(3, 2))?;
    /// assert!(graph.subclasses_of(2).eq([3]));
    /// # Ok::<(), Refusal>(())
    /// ```
    pub fn insert_subclass(class: u8, superclass: u8) -> Ticket {
        Ticket::of(INSERT, Kind::Subclass, [class, superclass, 0])
    }

    /// Puts a property under another; both have to be there.
    ///
    /// ```
    /// use vimelosa_host::{Graph, Range, Refusal, Ticket};
    /// let mut graph = Graph::fresh();
    /// graph.apply(Ticket::insert_property(5, 2, Range::Literal))?;
    /// assert_eq!(graph.apply(Ticket::insert_subproperty(6, 5)), Err(Refusal::UnknownProperty));
    /// graph.apply(Ticket::insert_property(6, 2, Range::Literal))?;
    /// graph.apply(Ticket::insert_subproperty(6, 5))?;
    /// # Ok::<(), Refusal>(())
    /// ```
    pub fn insert_subproperty(property: u8, superproperty: u8) -> Ticket {
        Ticket::of(INSERT, Kind::Subproperty, [property, superproperty, 0])
    }

    /// Puts an individual in a class, which has to be there; an unknown individual comes into being.
    ///
    /// ```
    /// use vimelosa_host::{Graph, Refusal, Ticket};
    /// let mut graph = Graph::fresh();
    /// graph.apply(Ticket::insert_class(3))?;
    /// graph.apply(Ticket::insert_member(4, 3))?;
    /// assert!(graph.members_of(3).eq([4]));
    ///
    /// // A misspelt class does not come to life.
    /// assert_eq!(graph.apply(Ticket::insert_member(4, 33)), Err(Refusal::UnknownClass));
    /// # Ok::<(), Refusal>(())
    /// ```
    pub fn insert_member(individual: u8, class: u8) -> Ticket {
        Ticket::of(INSERT, Kind::Member, [individual, class, 0])
    }

    /// Gives an individual a value for a property, which has to be there. If the property, or one above it,
    /// is exclusive, no other individual may have the value for that.
    ///
    /// ```
    /// use vimelosa_host::{Graph, Range, Refusal, Ticket};
    /// let mut graph = Graph::fresh();
    /// graph.apply(Ticket::insert_property(5, 2, Range::Literal))?;
    /// graph.apply(Ticket::insert_value(4, 7, 5))?;
    /// assert!(graph.values_of(4, 5).eq([7]));
    /// # Ok::<(), Refusal>(())
    /// ```
    pub fn insert_value(individual: u8, value: u8, property: u8) -> Ticket {
        Ticket::of(INSERT, Kind::Value, [individual, value, property])
    }

    /// Makes a property exclusive, which has to be there: no two individuals have the same value for it. It
    /// is refused if two have, and then holds against every later ticket.
    ///
    /// ```
    /// use vimelosa_host::{Change, Graph, Range, Refusal, Ticket};
    /// let (container, port, polls, press, oven, serial_1) = (2, 3, 10, 20, 21, 30);
    /// let mut graph = Graph::fresh();
    /// assert_eq!(graph.apply(Ticket::insert_exclusive(polls)), Err(Refusal::UnknownProperty));
    /// graph.apply(Ticket::insert_property(polls, container, Range::class(port)?))?;
    /// assert_eq!(graph.apply(Ticket::insert_exclusive(polls)), Ok(Change { added: 1, removed: 0 }));
    ///
    /// // One poller for a port.
    /// graph.apply(Ticket::insert_value(press, serial_1, polls))?;
    /// assert_eq!(graph.apply(Ticket::insert_value(oven, serial_1, polls)), Err(Refusal::Clashing));
    /// # Ok::<(), Refusal>(())
    /// ```
    pub fn insert_exclusive(property: u8) -> Ticket {
        Ticket::of(INSERT, Kind::Exclusive, [property, 0, 0])
    }
}
