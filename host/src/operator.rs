//! The tickets of shift operators, who enter devices and readings but never the class tree.

use crate::call::{apply_operator_list, apply_operator_ticket, Change};
use crate::{Graph, Kind, Refusal, RefusedTicket, Ticket};

impl Kind {
    /// Whether operators' tickets may have the kind: individual, literal, member and value. The others are
    /// the class tree and the properties.
    ///
    /// ```
    /// use vimelosa_host::Kind;
    /// let for_operators = Kind::ALL.into_iter().filter(|kind| kind.is_for_operators());
    /// assert!(for_operators.eq([Kind::Individual, Kind::Literal, Kind::Member, Kind::Value]));
    /// ```
    pub const fn is_for_operators(self) -> bool {
        matches!(self, Kind::Individual | Kind::Literal | Kind::Member | Kind::Value)
    }
}

/// Operators' tickets. Accepted or not, they leave every fact of a kind that is not for operators and add
/// none.
impl Graph {
    /// Runs one ticket of an operator: with a kind that is for operators ([`Kind::is_for_operators`]) as
    /// [`Graph::apply`] does.
    ///
    /// ```
    /// use vimelosa_host::{Change, Graph, Range, Refusal, Ticket};
    /// let (pump, pressure, p7, bar_6) = (2, 5, 20, 30);
    /// let mut graph = Graph::fresh();
    /// graph.apply(Ticket::insert_property(pressure, pump, Range::Literal))?;
    ///
    /// // A device and a reading. The device is a pump by the domain of its reading.
    /// let reading = Ticket::insert_value(p7, bar_6, pressure);
    /// assert_eq!(graph.apply_as_operator(reading), Ok(Change { added: 5, removed: 0 }));
    /// assert!(graph.members_of(pump).eq([p7]));
    ///
    /// // The class tree is not theirs, to insert or to delete.
    /// let before = graph.clone();
    /// for ticket in [Ticket::insert_subclass(pump, 3), Ticket::delete_class(pump)] {
    ///     assert_eq!(graph.apply_as_operator(ticket), Err(Refusal::NotForOperators));
    /// }
    /// assert_eq!(graph, before);
    /// # Ok::<(), Refusal>(())
    /// ```
    ///
    /// # Errors
    ///
    /// 5 to 7, 17, 8, 9, 16, 10, 11, in this order: those of [`Graph::apply`], with
    /// [`Refusal::NotForOperators`] after [`Refusal::BadIds`]. The graph is then as it was.
    pub fn apply_as_operator(&mut self, ticket: Ticket) -> Result<Change, Refusal> {
        self.apply_by(apply_operator_ticket, ticket)
    }

    /// Runs operators' tickets one after the other and answers for each, as [`Graph::apply_all`] does. A
    /// refused ticket gets what [`Graph::apply_as_operator`] refuses with.
    ///
    /// ```
    /// use vimelosa_host::{Graph, Kind, Refusal, Ticket};
    /// let (pump, valve, p7) = (2, 3, 20);
    /// let mut graph = Graph::fresh();
    /// graph.apply(Ticket::insert_class(pump))?;
    /// let classes = graph.body(Kind::Class).to_vec();
    ///
    /// let members = [valve, pump].map(|class| Ticket::insert_member(p7, class));
    /// let tickets = [Ticket::insert_class(valve), members[0], members[1]];
    /// let answers = graph.apply_all_as_operator(&tickets);
    /// assert_eq!(answers, [Err(Refusal::NotForOperators), Err(Refusal::UnknownClass), Ok(())]);
    /// assert_eq!(graph.body(Kind::Class), classes);
    /// # Ok::<(), Refusal>(())
    /// ```
    #[must_use = "which tickets were refused is told here alone"]
    pub fn apply_all_as_operator(&mut self, tickets: &[Ticket]) -> Vec<Result<(), Refusal>> {
        self.apply_all_by(apply_operator_list, tickets)
    }

    /// Runs all of an operator's tickets if none of them is refused, as [`Graph::apply_all_or_none`] does.
    ///
    /// ```
    /// use vimelosa_host::{Change, Graph, Refusal, RefusedTicket, Ticket};
    /// let mut graph = Graph::fresh();
    /// let with_class = [Ticket::insert_individual(20), Ticket::insert_class(3)];
    /// let refused = RefusedTicket { place: 1, refusal: Refusal::NotForOperators };
    /// assert_eq!(graph.apply_all_or_none_as_operator(&with_class), Err(refused));
    /// assert_eq!(graph, Graph::fresh());
    ///
    /// let change = graph.apply_all_or_none_as_operator(&with_class[..1])?;
    /// assert_eq!(change, Change { added: 2, removed: 0 });
    /// # Ok::<(), RefusedTicket>(())
    /// ```
    ///
    /// # Errors
    ///
    /// The first ticket that is refused; the graph is then as it was.
    pub fn apply_all_or_none_as_operator(&mut self, tickets: &[Ticket]) -> Result<Change, RefusedTicket> {
        self.apply_all_or_none_by(apply_operator_list, tickets)
    }
}
