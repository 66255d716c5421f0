//! The form of an image: contents with an entry for each kind, then a body for each kind. An image of the ten
//! kinds of document 01 is read too, as one without exclusive properties.

use crate::fact::RESOURCE;
use crate::rows::Rows;
use crate::Kind;

/// A graph has at most so many facts.
pub const MOST_FACTS: usize = 2048;

/// The edition of the image's form, its first byte.
const EDITION: u8 = 1;

/// The header: the edition and the number of entries, a byte each.
const HEADER: usize = 2;

/// Where the header has the number of entries.
const ENTRIES: usize = 1;

/// A start or a count in the contents: 16 bits, low byte first.
const FIELD: usize = 2;

/// Where an entry has its start: after the kind and the bytes per fact, a byte each.
const START: usize = 2;

/// Where an entry has its count.
const COUNT: usize = START + FIELD;

/// An entry of the contents; an image that is written has one for each kind.
const ENTRY: usize = COUNT + FIELD;

/// The header and the entries; the bodies follow.
const CONTENTS: usize = HEADER + ENTRY * Kind::ALL.len();

/// No graph's image is longer: the facts with the most ids are the values.
///
/// ```
/// use vimelosa_host::{LONGEST_IMAGE, MOST_FACTS};
/// assert_eq!(LONGEST_IMAGE, 68 + 3 * MOST_FACTS);
/// ```
pub const LONGEST_IMAGE: usize = CONTENTS + Kind::Value.width() * MOST_FACTS;

/// The image of the graph that has the class rdfs:Resource and nothing else.
pub(crate) fn fresh_image() -> Vec<u8> {
    let mut image = vec![EDITION, Kind::ALL.len() as u8];
    let mut start = CONTENTS as u16;
    for kind in Kind::ALL {
        let count = u16::from(kind == Kind::Class);
        image.extend([kind.number(), kind.width() as u8]);
        image.extend(start.to_le_bytes());
        image.extend(count.to_le_bytes());
        start += count * kind.width() as u16;
    }
    image.push(RESOURCE);
    image
}

/// Whether a well-formed image has an entry for the kind.
fn has_entry(image: &[u8], kind: Kind) -> bool {
    kind.number() <= image[ENTRIES]
}

/// Whether a well-formed image has an entry for each kind, as all that are written have.
pub(crate) fn has_all_entries(image: &[u8]) -> bool {
    Kind::ALL.into_iter().all(|kind| has_entry(image, kind))
}

/// One kind's body in a well-formed image; the empty part at the end if it has no entry for the kind.
pub(crate) fn rows_of(image: &[u8], kind: Kind) -> Rows<'_> {
    if !has_entry(image, kind) {
        return Rows::new(&image[image.len()..], kind.width());
    }
    let entry = HEADER + ENTRY * (usize::from(kind.number()) - 1);
    let number = |at: usize| usize::from(u16::from_le_bytes([image[at], image[at + 1]]));
    let (start, count) = (number(entry + START), number(entry + COUNT));
    Rows::new(&image[start..start + count * kind.width()], kind.width())
}
