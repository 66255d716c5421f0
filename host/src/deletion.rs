//! Tickets that delete.

use crate::ticket::DELETE;
use crate::{Kind, Ticket};

/// Deletions.
impl Ticket {
    /// Deletes a class, with the properties that have it as domain or range.
    ///
    /// ```
    /// use vimelosa_host::{Graph, Range, Refusal, Ticket};
    /// let mut graph = Graph::fresh();
    /// graph.apply(Ticket::insert_property(5, 2, Range::Literal))?;
    /// graph.apply(Ticket::delete_class(2))?;
    /// assert_eq!(graph, Graph::fresh());
    /// # Ok::<(), Refusal>(())
    /// ```
    pub fn delete_class(class: u8) -> Ticket {
        Ticket::of(DELETE, Kind::Class, [class, 0, 0])
    }

    /// Deletes a property, with its links and values; it is then not exclusive either.
    ///
    /// ```
    /// use vimelosa_host::{Graph, Range, Refusal, Ticket};
    /// let mut graph = Graph::fresh();
    /// graph.apply(Ticket::insert_property(5, 2, Range::Literal))?;
    /// graph.apply(Ticket::insert_value(4, 7, 5))?;
    /// graph.apply(Ticket::delete_property(5))?;
    /// assert_eq!(graph.values_of(4, 5).count(), 0);
    /// # Ok::<(), Refusal>(())
    /// ```
    pub fn delete_property(property: u8) -> Ticket {
        Ticket::of(DELETE, Kind::Property, [property, 0, 0])
    }

    /// Deletes an individual, with its memberships and values.
    ///
    /// ```
    /// use vimelosa_host::{Graph, Refusal, Ticket};
    /// let mut graph = Graph::fresh();
    /// graph.apply(Ticket::insert_class(3))?;
    /// graph.apply(Ticket::insert_member(4, 3))?;
    /// graph.apply(Ticket::delete_individual(4))?;
    /// assert_eq!(graph.members_of(3).count(), 0);
    /// # Ok::<(), Refusal>(())
    /// ```
    pub fn delete_individual(individual: u8) -> Ticket {
        Ticket::of(DELETE, Kind::Individual, [individual, 0, 0])
    }

    /// Deletes a literal, with the values that it is.
    ///
    /// ```
    /// use vimelosa_host::{Graph, Refusal, Ticket};
    /// let mut graph = Graph::fresh();
    /// graph.apply(Ticket::insert_literal(7))?;
    /// graph.apply(Ticket::delete_literal(7))?;
    /// assert_eq!(graph, Graph::fresh());
    /// # Ok::<(), Refusal>(())
    /// ```
    pub fn delete_literal(literal: u8) -> Ticket {
        Ticket::of(DELETE, Kind::Literal, [literal, 0, 0])
    }

    /// Takes a class from under another; its other superclasses stay its own.
    ///
    /// ```
    /// use vimelosa_host::{Graph, RESOURCE, Refusal, Ticket};
    /// let mut graph = Graph::fresh();
    /// graph.apply(Ticket::insert_subclass(3, 2))?;
    /// graph.apply(Ticket::delete_subclass(3, 2))?;
    /// assert!(graph.superclasses_of(3).eq([RESOURCE]));
    /// # Ok::<(), Refusal>(())
    /// ```
    pub fn delete_subclass(class: u8, superclass: u8) -> Ticket {
        Ticket::of(DELETE, Kind::Subclass, [class, superclass, 0])
    }

    /// Takes a property from under another; its other superproperties stay its own.
    ///
    /// ```
    /// use vimelosa_host::{Change, Graph, Range, Refusal, Ticket};
    /// let mut graph = Graph::fresh();
    /// for property in [5, 6] {
    ///     graph.apply(Ticket::insert_property(property, 2, Range::Literal))?;
    /// }
    /// graph.apply(Ticket::insert_subproperty(6, 5))?;
    /// assert_eq!(graph.apply(Ticket::delete_subproperty(6, 5)), Ok(Change { added: 0, removed: 1 }));
    /// # Ok::<(), Refusal>(())
    /// ```
    pub fn delete_subproperty(property: u8, superproperty: u8) -> Ticket {
        Ticket::of(DELETE, Kind::Subproperty, [property, superproperty, 0])
    }

    /// Takes an individual out of a class, and out of the classes under it.
    ///
    /// ```
    /// use vimelosa_host::{Graph, Refusal, Ticket};
    /// let mut graph = Graph::fresh();
    /// graph.apply(Ticket::insert_subclass(3, 2))?;
    /// graph.apply(Ticket::insert_member(4, 3))?;
    /// graph.apply(Ticket::delete_member(4, 2))?;
    /// assert_eq!(graph.members_of(3).count(), 0);
    /// # Ok::<(), Refusal>(())
    /// ```
    pub fn delete_member(individual: u8, class: u8) -> Ticket {
        Ticket::of(DELETE, Kind::Member, [individual, class, 0])
    }

    /// Takes a value from an individual, for the property and those under it.
    ///
    /// ```
    /// use vimelosa_host::{Graph, Range, Refusal, Ticket};
    /// let mut graph = Graph::fresh();
    /// graph.apply(Ticket::insert_property(5, 2, Range::Literal))?;
    /// graph.apply(Ticket::insert_value(4, 7, 5))?;
    /// graph.apply(Ticket::delete_value(4, 7, 5))?;
    /// assert_eq!(graph.values_of(4, 5).count(), 0);
    /// # Ok::<(), Refusal>(())
    /// ```
    pub fn delete_value(individual: u8, value: u8, property: u8) -> Ticket {
        Ticket::of(DELETE, Kind::Value, [individual, value, property])
    }

    /// Makes a property one that is not exclusive. Nothing else changes.
    ///
    /// ```
    /// use vimelosa_host::{Change, Graph, Range, Refusal, Ticket};
    /// let mut graph = Graph::fresh();
    /// graph.apply(Ticket::insert_property(5, 2, Range::Literal))?;
    /// graph.apply(Ticket::insert_exclusive(5))?;
    /// graph.apply(Ticket::insert_value(4, 7, 5))?;
    /// assert_eq!(graph.apply(Ticket::insert_value(6, 7, 5)), Err(Refusal::Clashing));
    /// assert_eq!(graph.apply(Ticket::delete_exclusive(5)), Ok(Change { added: 0, removed: 1 }));
    /// graph.apply(Ticket::insert_value(6, 7, 5))?;
    /// assert_eq!(graph.apply(Ticket::insert_exclusive(5)), Err(Refusal::Clashing));
    /// # Ok::<(), Refusal>(())
    /// ```
    pub fn delete_exclusive(property: u8) -> Ticket {
        Ticket::of(DELETE, Kind::Exclusive, [property, 0, 0])
    }
}
