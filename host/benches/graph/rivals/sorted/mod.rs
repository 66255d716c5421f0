//! The table as a sorted `Vec` of its words, with binary searches.

mod check;
mod deletion;
pub(super) mod image;
mod insertion;

use super::clash::{clashes, uses_unknown_class, uses_unknown_property, Lookups};
use super::fact::*;
use super::form::ticket_of;
use super::{Answer, Rival};

/// The words of a consistent table, ascending, without the zeros after them.
#[derive(Clone)]
pub struct Sorted {
    words: Vec<u32>,
}

/// The run of the words from `first` to `last` in ascending words.
fn run(words: &[u32], first: u32, last: u32) -> &[u32] {
    let start = words.partition_point(|word| *word < first);
    let rest = &words[start..];
    &rest[..rest.partition_point(|word| *word <= last)]
}

/// The facts of a kind.
fn of_kind(words: &[u32], kind: u8) -> &[u32] {
    run(words, word(kind, 0, 0, 0), word(kind, 255, 255, 255))
}

/// The facts of a kind whose first id is a.
fn of_first(words: &[u32], kind: u8, a: u8) -> &[u32] {
    run(words, word(kind, a, 0, 0), word(kind, a, 255, 255))
}

fn has(words: &[u32], word: u32) -> bool {
    words.binary_search(&word).is_ok()
}

/// The domain or the range of a property that has one.
fn end_of(words: &[u32], kind: u8, p: u8) -> u8 {
    let place = words.partition_point(|other| *other < word(kind, p, 0, 0));
    b_of(words[place])
}

fn a_of(word: u32) -> u8 {
    word.to_be_bytes()[1]
}

fn b_of(word: u32) -> u8 {
    word.to_be_bytes()[2]
}

fn c_of(word: u32) -> u8 {
    word.to_be_bytes()[3]
}

impl Lookups for Sorted {
    fn is(&self, sort: u8, x: u8) -> bool {
        has(&self.words, word(sort, x, 0, 0))
    }

    fn is_subclass(&self, x: u8, y: u8) -> bool {
        has(&self.words, word(SUBCLASS, x, y, 0))
    }

    fn is_subproperty(&self, x: u8, y: u8) -> bool {
        has(&self.words, word(SUBPROPERTY, x, y, 0))
    }

    fn domain_of(&self, p: u8) -> u8 {
        end_of(&self.words, DOMAIN, p)
    }

    fn range_of(&self, p: u8) -> u8 {
        end_of(&self.words, RANGE, p)
    }

    fn has_two_holders(&self, p: u8) -> bool {
        meet(self.values_of(p))
    }

    fn is_taken(&self, x: u8, y: u8, p: u8) -> bool {
        let taken = |z: u8| self.values_of(z).any(|held| b_of(held) == y && a_of(held) != x);
        self.exclusive_over(p).into_iter().any(taken)
    }

    fn values_meet(&self, p: u8, q: u8) -> bool {
        self.exclusive_over(q).into_iter().any(|z| meet(self.values_of(p).chain(self.values_of(z))))
    }
}

/// Whether two individuals have one value among these.
fn meet(values: impl Iterator<Item = u32>) -> bool {
    // The mark is no individual: it stands for none.
    let mut holders = [MARK; 256];
    let mut is_second = |x: u8, y: u8| {
        let before = std::mem::replace(&mut holders[usize::from(y)], x);
        before != MARK && before != x
    };
    values.into_iter().any(|held| is_second(a_of(held), b_of(held)))
}

impl Sorted {
    /// The words of the table's facts.
    pub fn words(&self) -> &[u32] {
        &self.words
    }

    fn values_of(&self, p: u8) -> impl Iterator<Item = u32> + '_ {
        of_kind(&self.words, VALUE).iter().copied().filter(move |held| c_of(*held) == p)
    }

    /// The property and those over it, as far as they are exclusive.
    fn exclusive_over(&self, p: u8) -> Vec<u8> {
        let exclusive = of_kind(&self.words, EXCLUSIVE).iter().map(|known| a_of(*known));
        exclusive.filter(|z| *z == p || self.is_subproperty(p, *z)).collect()
    }
}

impl Rival for Sorted {
    fn fresh() -> Sorted {
        let mut words = Vec::with_capacity(MOST_WORDS + 1);
        words.push(word(CLASS, RESOURCE, 0, 0));
        Sorted { words }
    }

    fn read(image: &[u8]) -> Result<Sorted, u8> {
        let words = image::words_of(image).ok_or(12)?;
        if words.len() > MOST_WORDS {
            return Err(11);
        }
        if !check::is_consistent(&words) {
            return Err(3);
        }
        Ok(Sorted { words })
    }

    fn check(table: &[u32]) -> u8 {
        check::check(table)
    }

    fn apply(&mut self, ticket: &[u8]) -> Answer {
        let asked = match ticket_of(ticket) {
            Ok(asked) => asked,
            Err(refusal) => return Answer::refused(refusal),
        };
        if !asked.inserts {
            return Answer::accepted(0, self.delete(&asked));
        }
        let is_there = asked.kind != PROPERTY && has(&self.words, asked.asked());
        if is_there {
            return Answer::accepted(0, 0);
        }
        if uses_unknown_property(self, &asked) {
            return Answer::refused(9);
        }
        if uses_unknown_class(self, &asked) {
            return Answer::refused(16);
        }
        if clashes(self, &asked) {
            return Answer::refused(10);
        }
        match self.insert(&asked) {
            Some(added) => Answer::accepted(added, 0),
            None => Answer::refused(11),
        }
    }

    fn write(&self, output: &mut [u8]) -> Result<usize, u8> {
        image::write(&self.words, output).ok_or(13)
    }

    fn count_facts(&self) -> usize {
        self.words.len()
    }
}
