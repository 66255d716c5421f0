//! A text read: each line cut at its blanks, the words sorted at the end.

use super::*;
use crate::rivals::fact::*;
use std::str;

/// A term of a line; 0 is the id of rdfs:Resource.
enum Term {
    Id(u8),
    Literal(u8),
    Mark,
    Type,
    Class,
    Property,
    Exclusive,
    /// The predicate of this kind's facts.
    Link(u8),
}

/// The words of a text's facts, ascending, each once; none if a line is outside the profile.
pub fn words_of(text: &[u8]) -> Option<Vec<u32>> {
    let text = str::from_utf8(text).ok()?;
    let mut words = Vec::with_capacity(MOST_WORDS + 1);
    let (mut literals, mut iris): (Flags, Flags) = ([false; 256], [false; 256]);
    for line in text.split_inclusive('\n') {
        let (fact, has_literal) = fact_of(line.strip_suffix(" .\n")?)?;
        let [kind, a, b, _] = fact.to_be_bytes();
        words.push(fact);
        if kind == MEMBER && b == RESOURCE {
            words.push(word(INDIVIDUAL, a, 0, 0));
        } else if has_literal {
            words.push(word(LITERAL, b, 0, 0));
            literals[usize::from(b)] = true;
        } else if kind == VALUE {
            iris[usize::from(b)] = true;
        }
    }
    if literals.iter().zip(iris).any(|(literal, iri)| *literal && iri) {
        return None;
    }
    words.sort_unstable();
    words.dedup();
    Some(words)
}

/// The word of the fact that a line has before its full stop, and whether its object is a literal.
fn fact_of(line: &str) -> Option<(u32, bool)> {
    let mut terms = line.split(' ').map(term_of);
    let (subject, predicate, object) = (terms.next()??, terms.next()??, terms.next()??);
    let a = match subject {
        Term::Id(a) if terms.next().is_none() => a,
        _ => return None,
    };
    let fact = match (predicate, object) {
        (Term::Id(c), Term::Id(b)) => word(VALUE, a, b, c),
        (Term::Id(c), Term::Literal(b)) => return Some((word(VALUE, a, b, c), true)),
        (Term::Type, Term::Id(b)) => word(MEMBER, a, b, 0),
        (Term::Type, Term::Class) => word(CLASS, a, 0, 0),
        (Term::Type, Term::Property) => word(PROPERTY, a, 0, 0),
        (Term::Type, Term::Exclusive) => word(EXCLUSIVE, a, 0, 0),
        (Term::Link(kind), Term::Id(b)) => word(kind, a, b, 0),
        (Term::Link(RANGE), Term::Mark) => word(RANGE, a, MARK, 0),
        _ => return None,
    };
    Some((fact, false))
}

fn term_of(text: &str) -> Option<Term> {
    if let Some(rest) = text.strip_prefix(ID) {
        return number_of(rest.strip_suffix('>')?).map(Term::Id);
    }
    if let Some(rest) = text.strip_prefix('"') {
        return number_of(rest.strip_suffix('"')?).map(Term::Literal);
    }
    match text {
        TYPE => Some(Term::Type),
        RDFS_RESOURCE => Some(Term::Id(RESOURCE)),
        SUB_CLASS_OF => Some(Term::Link(SUBCLASS)),
        SUB_PROPERTY_OF => Some(Term::Link(SUBPROPERTY)),
        RDFS_DOMAIN => Some(Term::Link(DOMAIN)),
        RDFS_RANGE => Some(Term::Link(RANGE)),
        RDFS_CLASS => Some(Term::Class),
        RDF_PROPERTY => Some(Term::Property),
        EXCLUSIVE_TYPE => Some(Term::Exclusive),
        RDFS_LITERAL => Some(Term::Mark),
        _ => None,
    }
}

/// The id of its digits: 2 to 255, without a sign or a leading zero.
fn number_of(digits: &str) -> Option<u8> {
    let first = *digits.as_bytes().first()?;
    let number = digits.parse().ok()?;
    ((b'1'..=b'9').contains(&first) && number > MARK).then_some(number)
}
