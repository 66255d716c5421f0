//! Lists of tickets on a graph.

use crate::call::{apply_list, AppliedList, Change};
use crate::image::LONGEST_IMAGE;
use crate::{Graph, Refusal, Ticket};
use std::error::Error;
use std::fmt;

/// A list call takes at most so many tickets: it counts them in 16 bits.
const MOST_TICKETS: usize = u16::MAX as usize;

/// A call for a list: image, tickets, answers and output.
type ListCall = fn(&[u8], &[u8], &mut [u8], &mut [u8]) -> Result<AppliedList, Refusal>;

/// The first ticket of a list that was refused.
#[derive(Clone, Copy, PartialEq, Eq, Hash, Debug)]
pub struct RefusedTicket {
    /// Its place in the list, counted from 0.
    pub place: usize,
    /// Why it was refused.
    pub refusal: Refusal,
}

/// ```
/// use vimelosa_host::{Refusal, RefusedTicket};
/// let refused = RefusedTicket { place: 2, refusal: Refusal::BadLength };
/// assert_eq!(refused.to_string(), "ticket at place 2, counted from 0: refusal 4: The ticket is not five \
///     bytes long.");
/// ```
impl fmt::Display for RefusedTicket {
    fn fmt(&self, f: &mut fmt::Formatter<'_>) -> fmt::Result {
        write!(f, "ticket at place {}, counted from 0: {}", self.place, self.refusal)
    }
}

impl Error for RefusedTicket {}

impl Graph {
    /// Runs the tickets one after the other and answers for each. A refused ticket, which gets what
    /// [`Graph::apply`] refuses with, changes nothing, and those after it are run. The image is read and
    /// written once for each 65,535 tickets.
    ///
    /// ```
    /// use vimelosa_host::{Fact, Graph, Refusal, Ticket};
    /// let mut graph = Graph::fresh();
    /// let tickets = [Ticket::insert_class(2), Ticket::insert_member(2, 0), Ticket::insert_class(3)];
    /// assert_eq!(graph.apply_all(&tickets), [Ok(()), Err(Refusal::Clashing), Ok(())]);
    /// assert!(graph.has(Fact::Class(3)));
    /// ```
    #[must_use = "which tickets were refused is told here alone"]
    pub fn apply_all(&mut self, tickets: &[Ticket]) -> Vec<Result<(), Refusal>> {
        self.apply_all_by(apply_list, tickets)
    }

    /// Runs all tickets if none of them is refused, and answers how the graph after the last differs from the
    /// one before the first.
    ///
    /// ```
    /// use vimelosa_host::{Change, Graph, Refusal, RefusedTicket, Ticket};
    /// let mut graph = Graph::fresh();
    /// let clashing = [Ticket::insert_class(2), Ticket::insert_individual(2)];
    /// let refused = RefusedTicket { place: 1, refusal: Refusal::Clashing };
    /// assert_eq!(graph.apply_all_or_none(&clashing), Err(refused));
    /// assert_eq!(graph, Graph::fresh());
    ///
    /// let change = graph.apply_all_or_none(&[Ticket::insert_class(2), Ticket::insert_class(3)])?;
    /// assert_eq!(change, Change { added: 4, removed: 0 });
    /// # Ok::<(), RefusedTicket>(())
    /// ```
    ///
    /// # Errors
    ///
    /// The first ticket that is refused; the graph is then as it was.
    pub fn apply_all_or_none(&mut self, tickets: &[Ticket]) -> Result<Change, RefusedTicket> {
        self.apply_all_or_none_by(apply_list, tickets)
    }

    pub(crate) fn apply_all_by(&mut self, call: ListCall, tickets: &[Ticket]) -> Vec<Result<(), Refusal>> {
        let mut outcomes = Vec::with_capacity(tickets.len());
        for part in tickets.chunks(MOST_TICKETS) {
            outcomes.extend(self.apply_part(call, part).into_iter().map(outcome_of));
        }
        outcomes
    }

    pub(crate) fn apply_all_or_none_by(
        &mut self,
        call: ListCall,
        tickets: &[Ticket],
    ) -> Result<Change, RefusedTicket> {
        let mut new = self.clone();
        for (place, outcome) in new.apply_all_by(call, tickets).into_iter().enumerate() {
            outcome.map_err(|refusal| RefusedTicket { place, refusal })?;
        }
        let diff = self.diff(&new);
        *self = new;
        let count = |facts: usize| u16::try_from(facts).expect("a graph has at most 2,048 facts");
        Ok(Change { added: count(diff.only_there.len()), removed: count(diff.only_here.len()) })
    }

    /// Runs tickets by one call; the number of each.
    fn apply_part(&mut self, call: ListCall, tickets: &[Ticket]) -> Vec<u8> {
        let bytes: Vec<u8> = tickets.iter().flat_map(|ticket| ticket.bytes()).collect();
        let (mut answers, mut output) = (vec![0; tickets.len()], [0; LONGEST_IMAGE]);
        match call(self.image(), &bytes, &mut answers, &mut output) {
            Ok(applied) => self.replace_image(&output[..applied.length]),
            Err(refusal) => unreachable!("no list on a consistent graph is refused, yet: {refusal}"),
        }
        answers
    }
}

/// What an answer byte says of its ticket.
fn outcome_of(number: u8) -> Result<(), Refusal> {
    match Refusal::of_number(number.into()) {
        Some(refusal) => Err(refusal),
        None if number == 0 => Ok(()),
        None => unreachable!("an answer byte is 0 or a ticket's refusal, not {number}"),
    }
}
