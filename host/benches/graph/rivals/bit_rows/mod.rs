//! The table as sets of 256 bits: the ids of each sort, the classes over and under a class, the members of a
//! class, the values of a subject for a property. A side effect is a join of rows.

mod check;
mod deletion;
mod image;
mod insertion;
mod loaded;
mod rows;
mod set;

use super::clash::{clashes, uses_unknown_class, uses_unknown_property, Lookups};
use super::fact::*;
use super::form::ticket_of;
use super::{Answer, Rival};
use rows::*;
use set::Set;

/// A consistent table.
pub struct BitRows {
    rows: Rows,
}

/// The place of an id's row.
fn at(of: usize, x: u8) -> usize {
    of + usize::from(x)
}

impl Lookups for BitRows {
    fn is(&self, sort: u8, x: u8) -> bool {
        self.rows.sort(sort).has(x)
    }

    fn is_subclass(&self, x: u8, y: u8) -> bool {
        self.rows.row(ABOVE, x).has(y)
    }

    fn is_subproperty(&self, x: u8, y: u8) -> bool {
        self.rows.row(OVER, x).has(y)
    }

    fn domain_of(&self, p: u8) -> u8 {
        self.rows.domain[usize::from(p)]
    }

    fn range_of(&self, p: u8) -> u8 {
        self.rows.range[usize::from(p)]
    }

    fn has_two_holders(&self, p: u8) -> bool {
        self.rows.has_two_holders(p)
    }

    fn is_taken(&self, x: u8, y: u8, p: u8) -> bool {
        let has_value = |z: u8, other: u8| other != x && self.rows.values(z, other).has(y);
        let is_taken = |z: u8| self.rows.row(SUBJECTS, z).ids().any(|other| has_value(z, other));
        self.exclusive_over(p).ids().any(is_taken)
    }

    fn values_meet(&self, p: u8, q: u8) -> bool {
        let subjects = |z: u8| self.rows.row(SUBJECTS, p).or(self.rows.row(SUBJECTS, z));
        let values = |x: u8, z: u8| self.rows.values(p, x).or(self.rows.values(z, x));
        self.exclusive_over(q).ids().any(|z| meet(subjects(z).ids().map(|x| values(x, z))))
    }
}

impl BitRows {
    /// The property and those over it, as far as they are exclusive.
    fn exclusive_over(&self, p: u8) -> Set {
        self.rows.row(OVER, p).with(p).and(self.rows.sort(EXCLUSIVE))
    }

    /// Whether the asked fact is there; of a property that is made, whether the property is.
    fn has(&self, kind: u8, a: u8, b: u8, c: u8) -> bool {
        match kind {
            SUBCLASS => self.is_subclass(a, b),
            SUBPROPERTY => self.is_subproperty(a, b),
            MEMBER => self.rows.row(CLASSES, a).has(b),
            VALUE => self.rows.values(c, a).has(b),
            sort => self.is(sort, a),
        }
    }
}

impl Rival for BitRows {
    fn fresh() -> BitRows {
        let mut rows = Rows::empty();
        rows.put(SORTS, CLASS, RESOURCE);
        rows.count = 1;
        BitRows { rows }
    }

    fn read(image: &[u8]) -> Result<BitRows, u8> {
        let loaded = image::load(image)?;
        if !check::is_consistent(&loaded) {
            return Err(3);
        }
        Ok(BitRows { rows: loaded.rows })
    }

    fn check(table: &[u32]) -> u8 {
        check::check(table)
    }

    fn apply(&mut self, ticket: &[u8]) -> Answer {
        let asked = match ticket_of(ticket) {
            Ok(asked) => asked,
            Err(refusal) => return Answer::refused(refusal),
        };
        if !asked.inserts {
            return Answer::accepted(0, self.delete(&asked));
        }
        let is_there = asked.kind != PROPERTY && self.has(asked.kind, asked.a, asked.b, asked.c);
        if is_there {
            return Answer::accepted(0, 0);
        }
        if uses_unknown_property(self, &asked) {
            return Answer::refused(9);
        }
        if uses_unknown_class(self, &asked) {
            return Answer::refused(16);
        }
        if clashes(self, &asked) {
            return Answer::refused(10);
        }
        match self.insert(&asked) {
            Some(added) => Answer::accepted(added, 0),
            None => Answer::refused(11),
        }
    }

    fn write(&self, output: &mut [u8]) -> Result<usize, u8> {
        image::write(&self.rows, output).ok_or(13)
    }

    fn count_facts(&self) -> usize {
        self.rows.count
    }
}
