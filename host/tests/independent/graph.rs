//! A graph: a set of facts, in the order of their words.

use super::fact::{fact, Fact};
use std::collections::BTreeSet;

#[derive(Clone, PartialEq, Eq, Debug, Default)]
pub struct Graph {
    facts: BTreeSet<Fact>,
}

impl Graph {
    pub fn of(facts: impl IntoIterator<Item = Fact>) -> Graph {
        Graph { facts: facts.into_iter().collect() }
    }

    pub fn len(&self) -> usize {
        self.facts.len()
    }

    pub fn has(&self, fact: Fact) -> bool {
        self.facts.contains(&fact)
    }

    pub fn put(&mut self, facts: impl IntoIterator<Item = Fact>) {
        self.facts.extend(facts);
    }

    /// The graph without one fact.
    pub fn without(&self, fact: Fact) -> Graph {
        let mut rest = self.clone();
        rest.facts.remove(&fact);
        rest
    }

    pub fn take(&mut self, facts: impl IntoIterator<Item = Fact>) {
        for fact in facts {
            self.facts.remove(&fact);
        }
    }

    pub fn facts(&self) -> impl Iterator<Item = Fact> + '_ {
        self.facts.iter().copied()
    }

    /// All facts of a kind.
    pub fn of_kind(&self, kind: u8) -> impl Iterator<Item = Fact> + '_ {
        let all = fact(kind, 0, 0, 0)..=fact(kind, 255, 255, 255);
        self.facts.range(all).copied()
    }

    /// All facts of a kind whose first id is a.
    pub fn of_first(&self, kind: u8, a: u8) -> impl Iterator<Item = Fact> + '_ {
        let all = fact(kind, a, 0, 0)..=fact(kind, a, 255, 255);
        self.facts.range(all).copied()
    }

    pub fn is_part_of(&self, other: &Graph) -> bool {
        self.facts.is_subset(&other.facts)
    }

    /// How many facts stand here and not in the other graph.
    pub fn count_beyond(&self, other: &Graph) -> usize {
        self.facts.difference(&other.facts).count()
    }
}
