//! Images: the contents, then a body for each kind. Eleven entries are written; ten entries, without the kind
//! of exclusive properties, are read as well.

use super::fact::{fact, ids_of, Fact, EXCLUSIVE, VALUE};
use super::graph::Graph;
use super::rules::is_consistent;
use super::table::{consistent_facts_of, is_bad_size, store};

/// Bytes before the first body of a written image.
pub const CONTENTS_LENGTH: usize = 68;
const EDITION: u8 = 1;

/// How many kinds the contents list: the written form, and the other that is read.
pub const ENTRIES: u8 = EXCLUSIVE;
pub const FEWER_ENTRIES: u8 = VALUE;

/// Bytes before the first body: edition, number of entries, and six for each.
pub fn contents_length(entries: u8) -> usize {
    2 + 6 * usize::from(entries)
}

/// One kind's line of the contents.
#[derive(Clone, Copy, PartialEq, Eq, Debug)]
pub struct Entry {
    pub width: usize,
    pub start: usize,
    pub count: usize,
}

impl Entry {
    fn of(image: &[u8], kind: u8) -> Option<Entry> {
        let at = contents_length(kind - 1);
        let bytes = image.get(at..at + 6)?;
        let number = |low: u8, high: u8| usize::from(low) + 256 * usize::from(high);
        Some(Entry {
            width: ids_of(kind),
            start: number(bytes[2], bytes[3]),
            count: number(bytes[4], bytes[5]),
        })
    }
}

/// The image of a graph, or none where a start or a count has no room in 16 bits.
pub fn image_of(graph: &Graph) -> Option<Vec<u8>> {
    image_with(ENTRIES, graph)
}

/// The image of a graph's facts of the first so many kinds.
pub fn image_with(entries: u8, graph: &Graph) -> Option<Vec<u8>> {
    let mut contents = vec![EDITION, entries];
    let mut bodies = Vec::new();
    for kind in 1..=entries {
        let width = ids_of(kind);
        let start = u16::try_from(contents_length(entries) + bodies.len()).ok()?;
        let count = u16::try_from(graph.of_kind(kind).count()).ok()?;
        contents.extend([kind, width as u8]);
        contents.extend(start.to_le_bytes());
        contents.extend(count.to_le_bytes());
        bodies.extend(graph.of_kind(kind).flat_map(|fact| fact.ids().into_iter().take(width)));
    }
    contents.extend(bodies);
    Some(contents)
}

/// How many entries an image says it has, if that is one of the two numbers that are read.
fn entries_of(image: &[u8]) -> Option<u8> {
    image.get(1).copied().filter(|entries| [ENTRIES, FEWER_ENTRIES].contains(entries))
}

/// The facts of an image, or none if it is malformed (refusal 12). The bodies are taken by the counts alone;
/// the image is well formed if it is the image, with as many entries, of what was taken.
pub fn facts_in(image: &[u8]) -> Option<Graph> {
    let entries = entries_of(image)?;
    let mut facts = Vec::new();
    let mut at = contents_length(entries);
    for kind in 1..=entries {
        let entry = Entry::of(image, kind)?;
        let end = at + entry.width * entry.count;
        let body = image.get(at..end)?;
        facts.extend(body.chunks(entry.width).map(|ids| fact_of(kind, ids)));
        at = end;
    }
    let graph = Graph::of(facts.iter().copied());
    let well_formed = facts.iter().all(Fact::is_fact) && image_with(entries, &graph)? == image;
    well_formed.then_some(graph)
}

fn fact_of(kind: u8, ids: &[u8]) -> Fact {
    let id = |place: usize| ids.get(place).copied().unwrap_or(0);
    fact(kind, id(0), id(1), id(2))
}

/// Writes a table's image and answers its length. Refusals 1, 2, 3, 13; bytes after the image are untouched.
pub fn write(table: &[u32], output: &mut [u8]) -> (u8, usize) {
    let graph = match consistent_facts_of(table) {
        Ok(graph) => graph,
        Err(refusal) => return (refusal, 0),
    };
    let image = image_of(&graph).expect("a table's image is short");
    match output.get_mut(..image.len()) {
        Some(place) => place.copy_from_slice(&image),
        None => return (13, 0),
    }
    (0, image.len())
}

/// Reads an image into a table. Refusals 1, 12, 11, 3; the words after its facts are zeros.
pub fn read(image: &[u8], table: &mut [u32]) -> u8 {
    if is_bad_size(table) {
        return 1;
    }
    let graph = match facts_in(image) {
        Some(graph) => graph,
        None => return 12,
    };
    if graph.len() > table.len() {
        return 11;
    }
    if !is_consistent(&graph) {
        return 3;
    }
    store(&graph, table);
    0
}

/// One kind's body as a part of the image; the empty part at its end if there is none to hand out, as of kind
/// 11 in an image with ten entries.
pub fn body(image: &[u8], kind: u8) -> &[u8] {
    let none = &image[image.len()..];
    let has_entry = entries_of(image).map_or(false, |entries| (1..=entries).contains(&kind));
    if !has_entry || facts_in(image).is_none() {
        return none;
    }
    Entry::of(image, kind).map_or(none, |entry| &image[entry.start..entry.start + entry.width * entry.count])
}
