//! The words for operations, kinds and ids, with which facts and tickets are written and read.

use crate::range::MARK;
use crate::Kind;

/// The word of an insertion.
pub(crate) const INSERT: &str = "insert";

/// The word of a deletion.
pub(crate) const DELETE: &str = "delete";

/// The word before a ticket in hexadecimal.
pub(crate) const TICKET: &str = "ticket";

/// The name of id 0.
pub(crate) const RESOURCE: &str = "Resource";

/// The name of the mark.
pub(crate) const LITERAL: &str = "Literal";

/// The word of a kind, and what the ids of its facts are.
fn words_of(kind: Kind) -> (&'static str, &'static str) {
    match kind {
        Kind::Class => ("class", "CLASS"),
        Kind::Property => ("property", "PROPERTY"),
        Kind::Individual => ("individual", "INDIVIDUAL"),
        Kind::Literal => ("literal", "LITERAL"),
        Kind::Subclass => ("subclass", "CLASS SUPERCLASS"),
        Kind::Subproperty => ("subproperty", "PROPERTY SUPERPROPERTY"),
        Kind::Domain => ("domain", "PROPERTY CLASS"),
        Kind::Range => ("range", "PROPERTY RANGE"),
        Kind::Member => ("member", "INDIVIDUAL CLASS"),
        Kind::Value => ("value", "INDIVIDUAL VALUE PROPERTY"),
        Kind::Exclusive => ("exclusive", "PROPERTY"),
    }
}

impl Kind {
    /// The kind's word.
    pub(crate) fn word(self) -> &'static str {
        words_of(self).0
    }

    /// What the ids of the kind's facts are.
    pub(crate) fn roles(self) -> &'static str {
        words_of(self).1
    }
}

/// What the ids of an inserted property are.
pub(crate) const PROPERTY_ROLES: &str = "PROPERTY DOMAIN RANGE";

/// Names that stand for ids. No name has digits alone, so it is told from an id.
pub trait Vocabulary {
    /// The id's name, if it has one.
    fn name_of(&self, id: u8) -> Option<&str>;

    /// The name's id, if it has one.
    fn id_of(&self, name: &str) -> Option<u8>;

    /// What is read as an id, in words.
    fn expected(&self) -> &'static str;
}

/// Ids as numbers; only the mark has a name.
pub(crate) struct Plain;

impl Vocabulary for Plain {
    fn name_of(&self, id: u8) -> Option<&str> {
        (id == MARK).then_some(LITERAL)
    }

    fn id_of(&self, name: &str) -> Option<u8> {
        (name == LITERAL).then_some(MARK)
    }

    fn expected(&self) -> &'static str {
        "an id from 0 to 255"
    }
}

/// The id that a decimal number is, if it has digits alone.
pub(crate) fn id_of_digits(word: &str) -> Option<u8> {
    let has_digits_alone = word.bytes().all(|byte| byte.is_ascii_digit());
    word.parse().ok().filter(|_| has_digits_alone)
}
