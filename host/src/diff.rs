//! In which facts two graphs differ.

use crate::{Fact, Graph};
use std::cmp::Ordering;

/// In which facts two graphs differ, ascending.
#[derive(Clone, PartialEq, Eq, Hash, Debug, Default)]
pub struct Diff {
    /// Facts of the graph asked that the other lacks.
    pub only_here: Vec<Fact>,
    /// Facts of the other that the graph asked lacks.
    pub only_there: Vec<Fact>,
}

impl Diff {
    /// Whether the graphs have the same facts.
    ///
    /// ```
    /// use vimelosa_host::Graph;
    /// assert!(Graph::fresh().diff(&Graph::fresh()).is_empty());
    /// ```
    pub fn is_empty(&self) -> bool {
        self.only_here.is_empty() && self.only_there.is_empty()
    }
}

impl Graph {
    /// The facts of this graph that the other lacks, and those of the other that this one lacks; by one pass
    /// over both.
    ///
    /// ```
    /// use vimelosa_host::{Fact, Graph, Refusal, Ticket};
    /// let mut graph = Graph::fresh();
    /// graph.apply(Ticket::insert_literal(2))?;
    /// let diff = Graph::fresh().diff(&graph);
    /// assert_eq!(diff.only_here, []);
    /// assert_eq!(diff.only_there, [Fact::Literal(2)]);
    /// # Ok::<(), Refusal>(())
    /// ```
    pub fn diff(&self, other: &Graph) -> Diff {
        let mut diff = Diff::default();
        let (mut here, mut there) = (self.all_facts().peekable(), other.all_facts().peekable());
        while let (Some(fact), Some(other)) = (here.peek(), there.peek()) {
            match fact.cmp(other) {
                Ordering::Less => diff.only_here.extend(here.next()),
                Ordering::Greater => diff.only_there.extend(there.next()),
                Ordering::Equal => {
                    here.next();
                    there.next();
                }
            }
        }
        diff.only_here.extend(here);
        diff.only_there.extend(there);
        diff
    }
}
