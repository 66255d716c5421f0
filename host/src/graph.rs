//! A graph, held as its image.

use crate::call::{apply_list, apply_ticket, check_image, Applied, Change};
use crate::image::{fresh_image, has_all_entries, rows_of, LONGEST_IMAGE};
use crate::rows::Rows;
use crate::{AllFacts, Fact, Facts, Kind, Refusal, Ticket};
use std::fmt;

/// A consistent graph. Its image is what a backup keeps. A graph has one image, so two graphs are equal if
/// their images are.
#[derive(Clone, PartialEq, Eq, Hash)]
pub struct Graph {
    image: Vec<u8>,
}

impl Graph {
    /// The graph of a fresh table: the class rdfs:Resource and nothing else.
    ///
    /// ```
    /// use vimelosa_host::{Fact, Graph};
    /// let graph = Graph::fresh();
    /// assert_eq!(graph.all_facts().collect::<Vec<_>>(), [Fact::Class(0)]);
    /// ```
    pub fn fresh() -> Graph {
        Graph { image: fresh_image() }
    }

    /// The graph of an image. An image of ten entries, as releases before 0.13.0 wrote it, is loaded as one
    /// without exclusive properties; [`Graph::image`] then has eleven.
    ///
    /// ```
    /// use vimelosa_host::{Graph, Refusal};
    /// let saved = Graph::fresh().image().to_vec();
    /// assert_eq!(Graph::load(&saved), Ok(Graph::fresh()));
    /// assert_eq!(Graph::load(&saved[1..]), Err(Refusal::Malformed));
    ///
    /// // With ten entries the bodies start at byte 62: one class, and nothing of the other kinds.
    /// let mut old = vec![1, 10, 1, 1, 62, 0, 1, 0];
    /// for (kind, width) in (2..=10).zip([1, 1, 1, 2, 2, 2, 2, 2, 3]) {
    ///     old.extend([kind, width, 63, 0, 0, 0]);
    /// }
    /// old.push(0);
    /// assert_eq!(Graph::load(&old), Ok(Graph::fresh()));
    /// ```
    ///
    /// # Errors
    ///
    /// Those of [`check_image`].
    pub fn load(image: &[u8]) -> Result<Graph, Refusal> {
        check_image(image)?;
        if has_all_entries(image) {
            return Ok(Graph { image: image.to_vec() });
        }
        // A list of no tickets writes the graph anew.
        let mut output = [0; LONGEST_IMAGE];
        let written = apply_list(image, &[], &mut [], &mut output)?;
        Ok(Graph::of_written(&output[..written.length]))
    }

    /// The graph of an image that a call has written.
    pub(crate) fn of_written(image: &[u8]) -> Graph {
        Graph { image: image.to_vec() }
    }

    /// Runs one ticket. The call reads the whole image and checks it again, which takes longer than the
    /// ticket: several tickets are faster by [`Graph::apply_all`].
    ///
    /// ```
    /// use vimelosa_host::{Change, Graph, Refusal, Ticket};
    /// let mut graph = Graph::fresh();
    /// assert_eq!(graph.apply(Ticket::insert_member(4, 3)), Err(Refusal::UnknownClass));
    /// graph.apply(Ticket::insert_class(3))?;
    /// assert_eq!(graph.apply(Ticket::insert_member(4, 3)), Ok(Change { added: 3, removed: 0 }));
    /// assert_eq!(graph.apply(Ticket::delete_class(3)), Ok(Change { added: 0, removed: 3 }));
    /// # Ok::<(), Refusal>(())
    /// ```
    ///
    /// # Errors
    ///
    /// 5 to 9, 16, 10, 11, in this order: [`Refusal::BadOperation`] to [`Refusal::UnknownProperty`],
    /// [`Refusal::UnknownClass`], [`Refusal::Clashing`], [`Refusal::TooMany`]. The graph is then as it was.
    pub fn apply(&mut self, ticket: Ticket) -> Result<Change, Refusal> {
        self.apply_by(apply_ticket, ticket)
    }

    /// Runs one ticket by a call: image, ticket and output.
    pub(crate) fn apply_by(
        &mut self,
        call: impl FnOnce(&[u8], &[u8], &mut [u8]) -> Result<Applied, Refusal>,
        ticket: Ticket,
    ) -> Result<Change, Refusal> {
        let mut output = [0; LONGEST_IMAGE];
        let applied = call(&self.image, &ticket.bytes(), &mut output)?;
        self.replace_image(&output[..applied.length]);
        Ok(applied.change)
    }

    /// Takes over an image that a call has written.
    pub(crate) fn replace_image(&mut self, written: &[u8]) {
        self.image.clear();
        self.image.extend(written);
    }

    /// The image, to be kept and loaded later.
    ///
    /// ```
    /// use vimelosa_host::Graph;
    /// let graph = Graph::fresh();
    /// assert_eq!(graph.image().len(), 69);
    /// ```
    pub fn image(&self) -> &[u8] {
        &self.image
    }

    /// One kind's body as a part of the image: the ids of its facts, ascending.
    ///
    /// ```
    /// use vimelosa_host::{Graph, Kind, Refusal, Ticket};
    /// let mut graph = Graph::fresh();
    /// graph.apply(Ticket::insert_class(3))?;
    /// graph.apply(Ticket::insert_member(4, 3))?;
    /// assert_eq!(graph.body(Kind::Class), [0, 3]);
    /// assert_eq!(graph.body(Kind::Member), [4, 0, 4, 3]);
    /// # Ok::<(), Refusal>(())
    /// ```
    pub fn body(&self, kind: Kind) -> &[u8] {
        self.rows(kind).bytes()
    }

    pub(crate) fn rows(&self, kind: Kind) -> Rows<'_> {
        rows_of(&self.image, kind)
    }

    /// The facts of a kind, ascending.
    ///
    /// ```
    /// use vimelosa_host::{Fact, Graph, Kind, Refusal, Ticket};
    /// let mut graph = Graph::fresh();
    /// graph.apply(Ticket::insert_class(3))?;
    /// graph.apply(Ticket::insert_member(4, 3))?;
    /// let members: Vec<Fact> = graph.facts(Kind::Member).collect();
    /// assert_eq!(members[1], Fact::Member { individual: 4, class: 3 });
    /// # Ok::<(), Refusal>(())
    /// ```
    pub fn facts(&self, kind: Kind) -> Facts<'_> {
        Facts::of(kind, self.rows(kind))
    }

    /// All facts, in the order of their words.
    ///
    /// ```
    /// use vimelosa_host::{Fact, Graph, Refusal, Ticket};
    /// let mut graph = Graph::fresh();
    /// graph.apply(Ticket::insert_class(2))?;
    /// let facts: Vec<Fact> = graph.all_facts().collect();
    /// assert_eq!(facts, [Fact::Class(0), Fact::Class(2), Fact::Subclass { class: 2, superclass: 0 }]);
    /// # Ok::<(), Refusal>(())
    /// ```
    pub fn all_facts(&self) -> AllFacts<'_> {
        AllFacts::in_image(&self.image)
    }

    /// How many facts the graph has, read off the image's contents; at least one, since rdfs:Resource is
    /// always a class.
    ///
    /// ```
    /// use vimelosa_host::{Graph, Refusal, Ticket};
    /// let mut graph = Graph::fresh();
    /// assert_eq!(graph.count_facts(), 1);
    /// graph.apply(Ticket::insert_subclass(3, 2))?;
    /// assert_eq!(graph.count_facts(), graph.all_facts().count());
    /// assert_eq!(graph.count_facts(), 6);
    /// # Ok::<(), Refusal>(())
    /// ```
    pub fn count_facts(&self) -> usize {
        Kind::ALL.into_iter().map(|kind| self.rows(kind).count()).sum()
    }

    /// Whether the graph has a fact, by binary search in its kind's body.
    ///
    /// ```
    /// use vimelosa_host::{Fact, Graph, Refusal, Ticket};
    /// let mut graph = Graph::fresh();
    /// graph.apply(Ticket::insert_individual(4))?;
    /// assert!(graph.has(Fact::Individual(4)));
    /// assert!(!graph.has(Fact::Class(4)));
    /// # Ok::<(), Refusal>(())
    /// ```
    pub fn has(&self, fact: Fact) -> bool {
        let kind = fact.kind();
        self.rows(kind).has(&fact.ids()[..kind.width()])
    }
}

impl Default for Graph {
    fn default() -> Graph {
        Graph::fresh()
    }
}

/// The graph of an image, as [`Graph::load`] gives it.
///
/// ```
/// use vimelosa_host::{Graph, Refusal};
/// assert_eq!(Graph::try_from(Graph::fresh().image()), Ok(Graph::fresh()));
/// assert_eq!(Graph::try_from(&[][..]), Err(Refusal::Malformed));
/// ```
impl TryFrom<&[u8]> for Graph {
    type Error = Refusal;

    fn try_from(image: &[u8]) -> Result<Graph, Refusal> {
        Graph::load(image)
    }
}

/// The facts in words.
///
/// ```
/// use vimelosa_host::{Graph, Refusal, Ticket};
/// let mut graph = Graph::fresh();
/// graph.apply(Ticket::insert_class(2))?;
/// assert_eq!(format!("{graph:?}"), "Graph { count: 3, facts: [class 0, class 2, subclass 2 0] }");
/// # Ok::<(), Refusal>(())
/// ```
impl fmt::Debug for Graph {
    fn fmt(&self, f: &mut fmt::Formatter<'_>) -> fmt::Result {
        f.debug_struct("Graph").field("count", &self.count_facts()).field("facts", &self.all_facts()).finish()
    }
}
