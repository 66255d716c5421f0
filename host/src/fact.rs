//! Facts. A class, property, individual or literal is named by its id, a byte; 0 is rdfs:Resource, and 1 is
//! the mark Literal, which names none of them.

use crate::range::MARK;
use crate::{Kind, Range};

/// The id of rdfs:Resource, the class of everything.
pub const RESOURCE: u8 = 0;

/// One fact of a graph. Facts are equal, and ordered, as their words are.
#[derive(Clone, Copy, PartialEq, Eq, PartialOrd, Ord, Hash, Debug)]
pub enum Fact {
    /// The id is a class.
    Class(u8),
    /// The id is a property.
    Property(u8),
    /// The id is an individual.
    Individual(u8),
    /// The id is a literal.
    Literal(u8),
    /// The class is a subclass of the other.
    Subclass {
        /// The lower class, a of CSub.
        class: u8,
        /// The class that it is under, b.
        superclass: u8,
    },
    /// The property is a subproperty of the other.
    Subproperty {
        /// The lower property, a of PSub.
        property: u8,
        /// The property that it is under, b.
        superproperty: u8,
    },
    /// What has the property is a member of the class.
    Domain {
        /// The property, a of Dom.
        property: u8,
        /// Its domain, b.
        class: u8,
    },
    /// The values of the property are literals, or members of a class.
    Range {
        /// The property, a of Rng.
        property: u8,
        /// Its range, b.
        range: Range,
    },
    /// The individual is a member of the class.
    Member {
        /// The individual, a of CI.
        individual: u8,
        /// The class that it is in, b.
        class: u8,
    },
    /// The individual has the value for the property.
    Value {
        /// The individual, a of PI.
        individual: u8,
        /// The value, an individual or a literal, b.
        value: u8,
        /// The property, c.
        property: u8,
    },
    /// The property is exclusive: no two individuals have the same value for it.
    Exclusive(u8),
}

impl Fact {
    /// The fact's kind.
    ///
    /// ```
    /// use vimelosa_host::{Fact, Kind};
    /// assert_eq!(Fact::Class(0).kind(), Kind::Class);
    /// ```
    pub fn kind(self) -> Kind {
        match self {
            Fact::Class(_) => Kind::Class,
            Fact::Property(_) => Kind::Property,
            Fact::Individual(_) => Kind::Individual,
            Fact::Literal(_) => Kind::Literal,
            Fact::Subclass { .. } => Kind::Subclass,
            Fact::Subproperty { .. } => Kind::Subproperty,
            Fact::Domain { .. } => Kind::Domain,
            Fact::Range { .. } => Kind::Range,
            Fact::Member { .. } => Kind::Member,
            Fact::Value { .. } => Kind::Value,
            Fact::Exclusive(_) => Kind::Exclusive,
        }
    }

    /// The fact's ids as documents 01 and 02 write them, unused ones 0.
    ///
    /// ```
    /// use vimelosa_host::Fact;
    /// assert_eq!(Fact::Member { individual: 4, class: 3 }.ids(), [4, 3, 0]);
    /// ```
    pub fn ids(self) -> [u8; 3] {
        match self {
            Fact::Class(a) | Fact::Property(a) | Fact::Individual(a) | Fact::Literal(a) => [a, 0, 0],
            Fact::Exclusive(property) => [property, 0, 0],
            Fact::Subclass { class, superclass } => [class, superclass, 0],
            Fact::Subproperty { property, superproperty } => [property, superproperty, 0],
            Fact::Domain { property, class } => [property, class, 0],
            Fact::Range { property, range } => [property, range.id(), 0],
            Fact::Member { individual, class } => [individual, class, 0],
            Fact::Value { individual, value, property } => [individual, value, property],
        }
    }

    /// The fact's word: the kind, then the ids, eight bits each.
    ///
    /// ```
    /// use vimelosa_host::Fact;
    /// assert_eq!(Fact::Class(0).word(), 16777216);
    /// assert_eq!(Fact::Member { individual: 4, class: 3 }.word(), 0x09_04_03_00);
    /// assert_eq!(Fact::Exclusive(5).word(), 0x0b_05_00_00);
    /// ```
    pub fn word(self) -> u32 {
        let [a, b, c] = self.ids();
        u32::from_be_bytes([self.kind().number(), a, b, c])
    }

    /// The fact of a kind with these ids, as they stand in a body or a word.
    pub(crate) fn of_ids(kind: Kind, ids: &[u8]) -> Fact {
        let id = |place: usize| ids.get(place).copied().unwrap_or(0);
        let (a, b, c) = (id(0), id(1), id(2));
        match kind {
            Kind::Class => Fact::Class(a),
            Kind::Property => Fact::Property(a),
            Kind::Individual => Fact::Individual(a),
            Kind::Literal => Fact::Literal(a),
            Kind::Subclass => Fact::Subclass { class: a, superclass: b },
            Kind::Subproperty => Fact::Subproperty { property: a, superproperty: b },
            Kind::Domain => Fact::Domain { property: a, class: b },
            Kind::Range => Fact::Range { property: a, range: Range::of_id(b) },
            Kind::Member => Fact::Member { individual: a, class: b },
            Kind::Value => Fact::Value { individual: a, value: b, property: c },
            Kind::Exclusive => Fact::Exclusive(a),
        }
    }

    /// Whether the mark stands nowhere but as the range of a property.
    fn has_mark_in_place(self) -> bool {
        match self {
            Fact::Range { property, .. } => property != MARK,
            _ => !self.ids().contains(&MARK),
        }
    }
}

/// The fact of a word, or the word itself where it is no fact: its kind is not 1 to 11, an unused id is not
/// 0, or the mark stands out of place.
///
/// ```
/// use vimelosa_host::Fact;
/// assert_eq!(Fact::try_from(0x09_04_03_00), Ok(Fact::Member { individual: 4, class: 3 }));
/// assert_eq!(Fact::try_from(0x0b_05_00_00), Ok(Fact::Exclusive(5)));
/// assert_eq!(Fact::try_from(0x01_01_00_00), Err(0x01_01_00_00));
/// ```
impl TryFrom<u32> for Fact {
    type Error = u32;

    fn try_from(word: u32) -> Result<Fact, u32> {
        let [number, ids @ ..] = word.to_be_bytes();
        let kind = Kind::try_from(number).map_err(|_| word)?;
        let fact = Fact::of_ids(kind, &ids);
        if fact.word() == word && fact.has_mark_in_place() {
            Ok(fact)
        } else {
            Err(word)
        }
    }
}
