//! Looking before agreeing: what a ticket would do to a graph, shown first and done if it is still so.

use crate::call::{applied_by, outcome, parts_of, Change};
use crate::ffi::{ask_raw, commit_raw};
use crate::image::MOST_FACTS;
use crate::{Fact, Graph, Refusal, Ticket};

/// What a ticket would do to a graph, from [`Graph::preview`]: the facts that it would add and those that it
/// would remove. It is of its own, so that it can be shown while the graph goes on changing; then
/// [`Preview::commit`] tells whether it still holds.
#[derive(Clone, PartialEq, Eq, Hash, Debug)]
#[must_use = "a preview does nothing until it is committed"]
pub struct Preview {
    ticket: Ticket,
    added: Vec<Fact>,
    removed: Vec<Fact>,
}

impl Graph {
    /// What a ticket would do to the graph, which stays as it is. The call takes about as long as
    /// [`Graph::apply`].
    ///
    /// ```
    /// use vimelosa_host::{Change, Fact, Graph, Range, RefusedTicket, Ticket};
    /// let (machine, pump, pressure, p7) = (2, 3, 5, 20);
    /// let mut graph = Graph::fresh();
    /// graph.apply_all_or_none(&[
    ///     Ticket::insert_subclass(pump, machine),
    ///     Ticket::insert_property(pressure, pump, Range::Literal),
    ///     Ticket::insert_member(p7, pump),
    /// ])?;
    ///
    /// // With the class go its links, its member's place in it, and the property that has it as domain.
    /// let before = graph.clone();
    /// let preview = graph.preview(Ticket::delete_class(pump)).unwrap();
    /// assert_eq!(preview.added(), []);
    /// assert_eq!(preview.removed(), [
    ///     Fact::Class(pump),
    ///     Fact::Property(pressure),
    ///     Fact::Subclass { class: pump, superclass: 0 },
    ///     Fact::Subclass { class: pump, superclass: machine },
    ///     Fact::Domain { property: pressure, class: pump },
    ///     Fact::Range { property: pressure, range: Range::Literal },
    ///     Fact::Member { individual: p7, class: pump },
    /// ]);
    /// assert_eq!(graph, before);
    ///
    /// // Agreed: exactly these facts go.
    /// assert_eq!(preview.commit(&mut graph), Ok(Change { added: 0, removed: 7 }));
    /// assert_eq!(before.diff(&graph).only_here, preview.removed());
    /// # Ok::<(), RefusedTicket>(())
    /// ```
    ///
    /// # Errors
    ///
    /// Those of [`Graph::apply`].
    pub fn preview(&self, ticket: Ticket) -> Result<Preview, Refusal> {
        let (mut added, mut removed) = ([0; MOST_FACTS], [0; MOST_FACTS]);
        let answered = ask_raw(self.image(), &ticket.bytes(), &mut added, &mut removed);
        let [number, come, go, _] = parts_of(answered);
        outcome(
            number,
            || unreachable!("a graph breaks no rule"),
            || unreachable!("the runs have room for any facts"),
        )?;
        let (added, removed) = (facts_of(&added[..come.into()]), facts_of(&removed[..go.into()]));
        Ok(Preview { ticket, added, removed })
    }
}

impl Preview {
    /// The ticket.
    ///
    /// ```
    /// use vimelosa_host::{Graph, Refusal, Ticket};
    /// let preview = Graph::fresh().preview(Ticket::insert_class(2))?;
    /// assert_eq!(preview.ticket(), Ticket::insert_class(2));
    /// # Ok::<(), Refusal>(())
    /// ```
    pub fn ticket(&self) -> Ticket {
        self.ticket
    }

    /// The facts that would come, in the order of their words; none for a deletion.
    ///
    /// ```
    /// use vimelosa_host::{Fact, Graph, Refusal, Ticket};
    /// let preview = Graph::fresh().preview(Ticket::insert_class(2))?;
    /// assert_eq!(preview.added(), [Fact::Class(2), Fact::Subclass { class: 2, superclass: 0 }]);
    /// # Ok::<(), Refusal>(())
    /// ```
    pub fn added(&self) -> &[Fact] {
        &self.added
    }

    /// The facts that would go, in the order of their words; none for an insertion.
    ///
    /// ```
    /// use vimelosa_host::{Fact, Graph, Refusal, Ticket};
    /// let mut graph = Graph::fresh();
    /// graph.apply(Ticket::insert_literal(7))?;
    /// assert_eq!(graph.preview(Ticket::delete_literal(7))?.removed(), [Fact::Literal(7)]);
    /// # Ok::<(), Refusal>(())
    /// ```
    pub fn removed(&self) -> &[Fact] {
        &self.removed
    }

    /// How many facts would come, and how many would go.
    ///
    /// ```
    /// use vimelosa_host::{Change, Graph, Refusal, Ticket};
    /// let preview = Graph::fresh().preview(Ticket::insert_class(2))?;
    /// assert_eq!(preview.change(), Change { added: 2, removed: 0 });
    /// # Ok::<(), Refusal>(())
    /// ```
    pub fn change(&self) -> Change {
        let count = |facts: &[Fact]| u16::try_from(facts.len()).expect("a graph has at most 2,048 facts");
        Change { added: count(&self.added), removed: count(&self.removed) }
    }

    /// Runs the ticket, if it would do to the graph now exactly what the preview shows. The graph may be any:
    /// a copy, or the same after changes that do not touch what was shown.
    ///
    /// ```
    /// use vimelosa_host::{Graph, Refusal, Ticket};
    /// let (pump, p7, p8) = (3, 20, 21);
    /// let mut graph = Graph::fresh();
    /// graph.apply(Ticket::insert_class(pump))?;
    /// graph.apply(Ticket::insert_member(p7, pump))?;
    /// let preview = graph.preview(Ticket::delete_class(pump))?;
    ///
    /// // Meanwhile a device is entered, which would leave the class too: it was not shown.
    /// graph.apply_as_operator(Ticket::insert_member(p8, pump))?;
    /// let before = graph.clone();
    /// assert_eq!(preview.commit(&mut graph), Err(Refusal::OutOfDate));
    /// assert_eq!(graph, before);
    ///
    /// // Shown again and agreed to.
    /// let preview = graph.preview(preview.ticket())?;
    /// assert_eq!(preview.commit(&mut graph), Ok(preview.change()));
    /// # Ok::<(), Refusal>(())
    /// ```
    ///
    /// # Errors
    ///
    /// Those of [`Graph::apply`], if the ticket is refused now, then [`Refusal::OutOfDate`]. The graph is
    /// then as it was.
    pub fn commit(&self, graph: &mut Graph) -> Result<Change, Refusal> {
        let (added, removed) = (words_of(&self.added), words_of(&self.removed));
        let call = |image: &[u8], ticket: &[u8], output: &mut [u8]| {
            applied_by(|output| commit_raw(image, ticket, &added, &removed, output), image, output)
        };
        graph.apply_by(call, self.ticket)
    }
}

/// The facts of a run that was written.
fn facts_of(words: &[u32]) -> Vec<Fact> {
    let fact = |word: u32| Fact::try_from(word).unwrap_or_else(|_| unreachable!("{word:08x} is no fact"));
    words.iter().copied().map(fact).collect()
}

fn words_of(facts: &[Fact]) -> Vec<u32> {
    facts.iter().map(|fact| fact.word()).collect()
}
