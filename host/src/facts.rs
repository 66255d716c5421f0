//! The facts of a graph, read off its image.

use crate::image::rows_of;
use crate::rows::Rows;
use crate::{Fact, Kind};
use std::array;
use std::fmt;
use std::iter::{Flatten, FusedIterator};
use std::slice::ChunksExact;

/// The facts of a kind, ascending; from [`Graph::facts`](crate::Graph::facts).
#[derive(Clone)]
#[must_use]
pub struct Facts<'a> {
    kind: Kind,
    rows: ChunksExact<'a, u8>,
}

impl<'a> Facts<'a> {
    pub(crate) fn of(kind: Kind, rows: Rows<'a>) -> Facts<'a> {
        Facts { kind, rows: rows.iter() }
    }
}

impl Iterator for Facts<'_> {
    type Item = Fact;

    fn next(&mut self) -> Option<Fact> {
        self.rows.next().map(|ids| Fact::of_ids(self.kind, ids))
    }

    fn size_hint(&self) -> (usize, Option<usize>) {
        self.rows.size_hint()
    }
}

impl DoubleEndedIterator for Facts<'_> {
    fn next_back(&mut self) -> Option<Fact> {
        self.rows.next_back().map(|ids| Fact::of_ids(self.kind, ids))
    }
}

impl ExactSizeIterator for Facts<'_> {}

impl FusedIterator for Facts<'_> {}

/// All facts, in the order of their words; from [`Graph::all_facts`](crate::Graph::all_facts).
#[derive(Clone)]
#[must_use]
pub struct AllFacts<'a> {
    facts: Flatten<array::IntoIter<Facts<'a>, { Kind::ALL.len() }>>,
    left: usize,
}

impl<'a> AllFacts<'a> {
    pub(crate) fn in_image(image: &'a [u8]) -> AllFacts<'a> {
        let facts = Kind::ALL.map(|kind| Facts::of(kind, rows_of(image, kind)));
        let left = facts.iter().map(|facts| facts.len()).sum();
        AllFacts { facts: facts.into_iter().flatten(), left }
    }

    /// Counts off a fact that is handed out.
    fn counted(&mut self, fact: Option<Fact>) -> Option<Fact> {
        self.left -= usize::from(fact.is_some());
        fact
    }
}

impl Iterator for AllFacts<'_> {
    type Item = Fact;

    fn next(&mut self) -> Option<Fact> {
        let fact = self.facts.next();
        self.counted(fact)
    }

    fn size_hint(&self) -> (usize, Option<usize>) {
        (self.left, Some(self.left))
    }
}

impl DoubleEndedIterator for AllFacts<'_> {
    fn next_back(&mut self) -> Option<Fact> {
        let fact = self.facts.next_back();
        self.counted(fact)
    }
}

impl ExactSizeIterator for AllFacts<'_> {}

impl FusedIterator for AllFacts<'_> {}

/// The facts that are left, in words.
///
/// ```
/// use vimelosa_host::{Graph, Kind};
/// assert_eq!(format!("{:?}", Graph::fresh().facts(Kind::Class)), "[class 0]");
/// ```
impl fmt::Debug for Facts<'_> {
    fn fmt(&self, f: &mut fmt::Formatter<'_>) -> fmt::Result {
        list_in_words(f, self.clone())
    }
}

/// The facts that are left, in words.
impl fmt::Debug for AllFacts<'_> {
    fn fmt(&self, f: &mut fmt::Formatter<'_>) -> fmt::Result {
        list_in_words(f, self.clone())
    }
}

fn list_in_words(f: &mut fmt::Formatter<'_>, facts: impl Iterator<Item = Fact>) -> fmt::Result {
    let mut list = f.debug_list();
    for fact in facts {
        list.entry(&format_args!("{fact}"));
    }
    list.finish()
}
