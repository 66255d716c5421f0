//! What a graph says of an id.

use crate::{Fact, Graph, Kind, Range};

/// Look-ups. All consequences are in the graph already, so each answer is read off one body: by binary search
/// where the body is sorted by the id asked, else by one pass over it. Nothing is said of an id that the
/// graph does not have, or has as something else.
impl Graph {
    /// The classes under a class, directly or not, ascending; by one pass over the links.
    ///
    /// ```
    /// use vimelosa_host::{Graph, Refusal, Ticket};
    /// let (machine, pump, dosing_pump) = (2, 3, 4);
    /// let mut graph = Graph::fresh();
    /// graph.apply(Ticket::insert_subclass(pump, machine))?;
    /// graph.apply(Ticket::insert_subclass(dosing_pump, pump))?;
    /// assert_eq!(graph.subclasses_of(machine).collect::<Vec<_>>(), [pump, dosing_pump]);
    /// # Ok::<(), Refusal>(())
    /// ```
    pub fn subclasses_of(&self, class: u8) -> impl Iterator<Item = u8> + '_ {
        let links = self.rows(Kind::Subclass).iter();
        links.filter(move |ids| ids[1] == class).map(|ids| ids[0])
    }

    /// The classes above a class, directly or not, ascending; rdfs:Resource is above every other. By binary
    /// search.
    ///
    /// ```
    /// use vimelosa_host::{Graph, Refusal, Ticket, RESOURCE};
    /// let (machine, pump) = (2, 3);
    /// let mut graph = Graph::fresh();
    /// graph.apply(Ticket::insert_subclass(pump, machine))?;
    /// assert_eq!(graph.superclasses_of(pump).collect::<Vec<_>>(), [RESOURCE, machine]);
    /// # Ok::<(), Refusal>(())
    /// ```
    pub fn superclasses_of(&self, class: u8) -> impl Iterator<Item = u8> + '_ {
        self.rows(Kind::Subclass).of_first(class).iter().map(|ids| ids[1])
    }

    /// The classes above a class with none between, ascending; by a search for each pair of those above.
    ///
    /// ```
    /// use vimelosa_host::{Graph, Refusal, Ticket, RESOURCE};
    /// let (machine, pump) = (2, 3);
    /// let mut graph = Graph::fresh();
    /// graph.apply(Ticket::insert_subclass(pump, machine))?;
    /// assert_eq!(graph.direct_superclasses(pump), [machine]);
    /// assert_eq!(graph.direct_superclasses(machine), [RESOURCE]);
    /// # Ok::<(), Refusal>(())
    /// ```
    pub fn direct_superclasses(&self, class: u8) -> Vec<u8> {
        let is_above = |superclass: u8, class: u8| self.has(Fact::Subclass { class, superclass });
        let has_none_between = |above: &u8| !self.superclasses_of(class).any(|other| is_above(*above, other));
        self.superclasses_of(class).filter(has_none_between).collect()
    }

    /// The members of a class and of the classes under it, ascending; by one pass over the memberships.
    ///
    /// ```
    /// use vimelosa_host::{Graph, Refusal, Ticket};
    /// let (machine, pump, p7) = (2, 3, 20);
    /// let mut graph = Graph::fresh();
    /// graph.apply(Ticket::insert_subclass(pump, machine))?;
    /// graph.apply(Ticket::insert_member(p7, pump))?;
    /// assert_eq!(graph.members_of(machine).collect::<Vec<_>>(), [p7]);
    /// # Ok::<(), Refusal>(())
    /// ```
    pub fn members_of(&self, class: u8) -> impl Iterator<Item = u8> + '_ {
        let members = self.rows(Kind::Member).iter();
        members.filter(move |ids| ids[1] == class).map(|ids| ids[0])
    }

    /// The values that an individual has for a property or one under it, ascending; by binary search and a
    /// pass over the individual's values.
    ///
    /// ```
    /// use vimelosa_host::{Graph, Range, Refusal, Ticket};
    /// let (machine, serial_number, p7, number_4711) = (2, 10, 20, 30);
    /// let mut graph = Graph::fresh();
    /// graph.apply(Ticket::insert_property(serial_number, machine, Range::Literal))?;
    /// graph.apply(Ticket::insert_value(p7, number_4711, serial_number))?;
    /// assert_eq!(graph.values_of(p7, serial_number).collect::<Vec<_>>(), [number_4711]);
    /// # Ok::<(), Refusal>(())
    /// ```
    pub fn values_of(&self, individual: u8, property: u8) -> impl Iterator<Item = u8> + '_ {
        let values = self.rows(Kind::Value).of_first(individual).iter();
        values.filter(move |ids| ids[2] == property).map(|ids| ids[1])
    }

    /// The individuals that have a value for a property or one under it, ascending; by one pass over all
    /// values.
    ///
    /// ```
    /// use vimelosa_host::{Graph, Range, Refusal, Ticket};
    /// let (machine, port, connected_to, p7, p8, port_a) = (2, 3, 10, 20, 21, 30);
    /// let mut graph = Graph::fresh();
    /// graph.apply(Ticket::insert_property(connected_to, machine, Range::class(port)?))?;
    /// graph.apply(Ticket::insert_value(p8, port_a, connected_to))?;
    /// graph.apply(Ticket::insert_value(p7, port_a, connected_to))?;
    /// assert_eq!(graph.holders_of(port_a, connected_to).collect::<Vec<_>>(), [p7, p8]);
    /// # Ok::<(), Refusal>(())
    /// ```
    pub fn holders_of(&self, value: u8, property: u8) -> impl Iterator<Item = u8> + '_ {
        let values = self.rows(Kind::Value).iter();
        values.filter(move |ids| ids[1..] == [value, property]).map(|ids| ids[0])
    }

    /// The domain of a property, if the graph has the property; by binary search.
    ///
    /// ```
    /// use vimelosa_host::{Graph, Range, Refusal, Ticket};
    /// let (machine, serial_number) = (2, 10);
    /// let mut graph = Graph::fresh();
    /// graph.apply(Ticket::insert_property(serial_number, machine, Range::Literal))?;
    /// assert_eq!(graph.domain_of(serial_number), Some(machine));
    /// assert_eq!(graph.domain_of(machine), None);
    /// # Ok::<(), Refusal>(())
    /// ```
    pub fn domain_of(&self, property: u8) -> Option<u8> {
        self.rows(Kind::Domain).of_first(property).iter().next().map(|ids| ids[1])
    }

    /// The range of a property, if the graph has the property; by binary search.
    ///
    /// ```
    /// use vimelosa_host::{Graph, Range, Refusal, Ticket};
    /// let (machine, serial_number) = (2, 10);
    /// let mut graph = Graph::fresh();
    /// graph.apply(Ticket::insert_property(serial_number, machine, Range::Literal))?;
    /// assert_eq!(graph.range_of(serial_number), Some(Range::Literal));
    /// assert_eq!(graph.range_of(machine), None);
    /// # Ok::<(), Refusal>(())
    /// ```
    pub fn range_of(&self, property: u8) -> Option<Range> {
        self.rows(Kind::Range).of_first(property).iter().next().map(|ids| Range::of_id(ids[1]))
    }

    /// The properties that are exclusive, ascending: no two individuals have the same value for one of them.
    ///
    /// ```
    /// use vimelosa_host::{Graph, Range, Refusal, Ticket};
    /// let (machine, serial_number, inventory_number) = (2, 10, 11);
    /// let mut graph = Graph::fresh();
    /// for property in [serial_number, inventory_number] {
    ///     graph.apply(Ticket::insert_property(property, machine, Range::Literal))?;
    /// }
    /// graph.apply(Ticket::insert_exclusive(inventory_number))?;
    /// assert_eq!(graph.exclusive_properties().collect::<Vec<_>>(), [inventory_number]);
    /// # Ok::<(), Refusal>(())
    /// ```
    pub fn exclusive_properties(&self) -> impl Iterator<Item = u8> + '_ {
        self.body(Kind::Exclusive).iter().copied()
    }

    /// Whether a property is exclusive; by binary search. A property that is not may be under one that is.
    ///
    /// ```
    /// use vimelosa_host::{Graph, Range, Refusal, Ticket};
    /// let (machine, serial_number) = (2, 10);
    /// let mut graph = Graph::fresh();
    /// graph.apply(Ticket::insert_property(serial_number, machine, Range::Literal))?;
    /// assert!(!graph.is_exclusive(serial_number));
    /// graph.apply(Ticket::insert_exclusive(serial_number))?;
    /// assert!(graph.is_exclusive(serial_number));
    /// # Ok::<(), Refusal>(())
    /// ```
    pub fn is_exclusive(&self, property: u8) -> bool {
        self.has(Fact::Exclusive(property))
    }
}
