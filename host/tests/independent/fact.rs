//! Facts and their words.

use std::cmp::Ordering;

/// rdfs:Resource.
pub const RESOURCE: u8 = 0;

/// The mark Literal, which stands only as the range of a property.
pub const MARK: u8 = 1;

pub const CLASS: u8 = 1;
pub const PROPERTY: u8 = 2;
pub const INDIVIDUAL: u8 = 3;
pub const LITERAL: u8 = 4;
pub const SUBCLASS: u8 = 5;
pub const SUBPROPERTY: u8 = 6;
pub const DOMAIN: u8 = 7;
pub const RANGE: u8 = 8;
pub const MEMBER: u8 = 9;
pub const VALUE: u8 = 10;
pub const EXCLUSIVE: u8 = 11;

/// A kind and its ids; unused ids are 0.
#[derive(Clone, Copy, PartialEq, Eq, Debug)]
pub struct Fact {
    pub kind: u8,
    pub a: u8,
    pub b: u8,
    pub c: u8,
}

/// How many ids a fact of the kind has; 0 where there is no such kind.
pub fn ids_of(kind: u8) -> usize {
    match kind {
        CLASS..=LITERAL | EXCLUSIVE => 1,
        SUBCLASS..=MEMBER => 2,
        VALUE => 3,
        _ => 0,
    }
}

pub fn fact(kind: u8, a: u8, b: u8, c: u8) -> Fact {
    Fact { kind, a, b, c }
}

pub fn class(a: u8) -> Fact {
    fact(CLASS, a, 0, 0)
}

pub fn property(a: u8) -> Fact {
    fact(PROPERTY, a, 0, 0)
}

pub fn individual(a: u8) -> Fact {
    fact(INDIVIDUAL, a, 0, 0)
}

pub fn literal(a: u8) -> Fact {
    fact(LITERAL, a, 0, 0)
}

pub fn subclass(a: u8, b: u8) -> Fact {
    fact(SUBCLASS, a, b, 0)
}

pub fn subproperty(a: u8, b: u8) -> Fact {
    fact(SUBPROPERTY, a, b, 0)
}

pub fn domain(a: u8, b: u8) -> Fact {
    fact(DOMAIN, a, b, 0)
}

pub fn range(a: u8, b: u8) -> Fact {
    fact(RANGE, a, b, 0)
}

pub fn member(a: u8, b: u8) -> Fact {
    fact(MEMBER, a, b, 0)
}

pub fn value(a: u8, b: u8, c: u8) -> Fact {
    fact(VALUE, a, b, c)
}

pub fn exclusive(a: u8) -> Fact {
    fact(EXCLUSIVE, a, 0, 0)
}

/// The order of facts is that of their words.
impl Ord for Fact {
    fn cmp(&self, other: &Fact) -> Ordering {
        self.word().cmp(&other.word())
    }
}

impl PartialOrd for Fact {
    fn partial_cmp(&self, other: &Fact) -> Option<Ordering> {
        Some(self.cmp(other))
    }
}

impl Fact {
    pub fn ids(&self) -> [u8; 3] {
        [self.a, self.b, self.c]
    }

    /// kind × 16777216 + a × 65536 + b × 256 + c
    pub fn word(&self) -> u32 {
        let ids = u32::from(self.a) * 65536 + u32::from(self.b) * 256 + u32::from(self.c);
        u32::from(self.kind) * 16777216 + ids
    }

    /// The fact of a word, if the word is one.
    pub fn of_word(word: u32) -> Option<Fact> {
        let [kind, a, b, c] = word.to_be_bytes();
        let found = fact(kind, a, b, c);
        found.is_fact().then_some(found)
    }

    /// The kind is 1 to 11, unused ids are 0, and the mark stands only as b of a range.
    pub fn is_fact(&self) -> bool {
        let used = ids_of(self.kind);
        let unused_are_zero = self.ids()[used..].iter().all(|id| *id == 0);
        let mark_in_place = self.ids().iter().enumerate().all(|(place, id)| {
            let may_be_mark = self.kind == RANGE && place == 1;
            *id != MARK || may_be_mark
        });
        used > 0 && unused_are_zero && mark_in_place
    }
}
