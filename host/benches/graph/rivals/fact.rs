//! Facts as words, with the numbers of documents 01 and 02.

use std::iter;

pub const CLASS: u8 = 1;
pub const PROPERTY: u8 = 2;
pub const INDIVIDUAL: u8 = 3;
pub const LITERAL: u8 = 4;
pub const SUBCLASS: u8 = 5;
pub const SUBPROPERTY: u8 = 6;
pub const DOMAIN: u8 = 7;
pub const RANGE: u8 = 8;
pub const MEMBER: u8 = 9;
pub const VALUE: u8 = 10;
pub const EXCLUSIVE: u8 = 11;

/// rdfs:Resource.
pub const RESOURCE: u8 = 0;

/// The mark Literal, which stands only as the range of a property.
pub const MARK: u8 = 1;

/// A table has at most so many words.
pub const MOST_WORDS: usize = 2048;

/// The word of a kind and three ids.
pub const fn word(kind: u8, a: u8, b: u8, c: u8) -> u32 {
    u32::from_be_bytes([kind, a, b, c])
}

/// How many ids a fact of the kind has; 0 where there is no such kind.
pub fn width(kind: u8) -> usize {
    match kind {
        CLASS..=LITERAL | EXCLUSIVE => 1,
        SUBCLASS..=MEMBER => 2,
        VALUE => 3,
        _ => 0,
    }
}

/// The bits of unused ids, by kind.
const UNUSED: [u32; 12] = [!0, 0xffff, 0xffff, 0xffff, 0xffff, 0xff, 0xff, 0xff, 0xff, 0xff, 0, 0xffff];

/// The word is a fact: its kind is one, unused ids are 0, and the mark stands only as b of a range.
pub fn is_fact(word: u32) -> bool {
    let [kind, a, b, c] = word.to_be_bytes();
    let unused = match UNUSED.get(usize::from(kind)) {
        Some(unused) => unused,
        None => return false,
    };
    let has_mark = (a == MARK) | (c == MARK) | ((b == MARK) & (kind != RANGE));
    (kind != 0) & (word & unused == 0) & !has_mark
}

/// Ascending words cut into runs that differ in so many low bits only.
pub fn runs_of(words: &[u32], low_bits: u32) -> impl Iterator<Item = &[u32]> {
    let mut rest = words;
    iter::from_fn(move || {
        let first = rest.first()? >> low_bits;
        let end = rest.iter().position(|word| word >> low_bits != first).unwrap_or(rest.len());
        let (run, after) = rest.split_at(end);
        rest = after;
        Some(run)
    })
}
