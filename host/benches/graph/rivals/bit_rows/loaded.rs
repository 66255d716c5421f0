//! Rows filled from facts that may break any rule.

use super::rows::*;
use super::set::Set;
use crate::rivals::fact::*;

/// Rows as they came, with what the check needs beside them.
pub struct Loaded {
    pub rows: Rows,
    /// The first ids of class links, of property links and of memberships.
    pub linked: Set,
    pub linked_properties: Set,
    pub placed: Set,
    /// The properties that have a domain, a range, a value.
    pub with_domain: Set,
    pub with_range: Set,
    pub valued: Set,
    /// A property has two domains or two ranges.
    pub has_double: bool,
}

impl Loaded {
    pub fn empty() -> Loaded {
        Loaded {
            rows: Rows::empty(),
            linked: Set::EMPTY,
            linked_properties: Set::EMPTY,
            placed: Set::EMPTY,
            with_domain: Set::EMPTY,
            with_range: Set::EMPTY,
            valued: Set::EMPTY,
            has_double: false,
        }
    }

    /// Puts in all facts of a kind, given by their ids.
    #[inline(always)]
    pub fn put_all(&mut self, kind: u8, facts: impl Iterator<Item = [u8; 3]>) {
        match kind {
            SUBCLASS => facts.for_each(|[a, b, _]| {
                self.linked.put(a);
                self.rows.put(ABOVE, a, b);
                self.rows.put(BELOW, b, a);
            }),
            SUBPROPERTY => facts.for_each(|[a, b, _]| {
                self.linked_properties.put(a);
                self.rows.put(OVER, a, b);
                self.rows.put(UNDER, b, a);
            }),
            DOMAIN => facts.for_each(|[a, b, _]| self.put_domain(a, b)),
            RANGE => facts.for_each(|[a, b, _]| self.put_range(a, b)),
            MEMBER => facts.for_each(|[a, b, _]| {
                self.placed.put(a);
                self.rows.put(CLASSES, a, b);
                self.rows.put(MEMBERS, b, a);
            }),
            VALUE => facts.for_each(|[a, b, c]| {
                self.valued.put(c);
                self.rows.put_value(c, a, b);
            }),
            sort => facts.for_each(|[a, ..]| self.rows.put(SORTS, sort, a)),
        }
    }

    fn put_domain(&mut self, p: u8, class: u8) {
        self.has_double |= self.with_domain.has(p);
        self.with_domain.put(p);
        self.rows.domain[usize::from(p)] = class;
    }

    fn put_range(&mut self, p: u8, range: u8) {
        self.has_double |= self.with_range.has(p);
        self.with_range.put(p);
        self.rows.range[usize::from(p)] = range;
    }
}
