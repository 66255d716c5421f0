//! Graphs as texts of N-Triples, as the host's calls write and read them. Both rivals share all of it but the
//! check of the words.

mod reading;
mod writing;

use super::fact::MOST_WORDS;
use super::sorted::image;
use super::{accepted, Rival};

const TYPE: &str = "<http://www.w3.org/1999/02/22-rdf-syntax-ns#type>";
const RDF_PROPERTY: &str = "<http://www.w3.org/1999/02/22-rdf-syntax-ns#Property>";
const RDFS_RESOURCE: &str = "<http://www.w3.org/2000/01/rdf-schema#Resource>";
const RDFS_LITERAL: &str = "<http://www.w3.org/2000/01/rdf-schema#Literal>";
const RDFS_CLASS: &str = "<http://www.w3.org/2000/01/rdf-schema#Class>";
const SUB_CLASS_OF: &str = "<http://www.w3.org/2000/01/rdf-schema#subClassOf>";
const SUB_PROPERTY_OF: &str = "<http://www.w3.org/2000/01/rdf-schema#subPropertyOf>";
const RDFS_DOMAIN: &str = "<http://www.w3.org/2000/01/rdf-schema#domain>";
const RDFS_RANGE: &str = "<http://www.w3.org/2000/01/rdf-schema#range>";

/// The type of exclusive properties.
const EXCLUSIVE_TYPE: &str = "<urn:mark:excl>";

/// What the IRI of an id other than 0 starts with.
const ID: &str = "<urn:id:";

/// A set of ids, a flag for each.
type Flags = [bool; 256];

/// Writes the text of an image's graph. Answers 0 and, above its 16 bits, the text's length, or refusal 12,
/// 11, 3 or 13.
pub fn write_triples<R: Rival>(image: &[u8], output: &mut [u8]) -> u64 {
    let words = match image::words_of(image) {
        Some(words) => words,
        None => return 12,
    };
    match refusal_of::<R>(&words) {
        0 => write_text(&writing::text_of(&words), output),
        refusal => refusal,
    }
}

fn write_text(text: &str, output: &mut [u8]) -> u64 {
    match output.get_mut(..text.len()) {
        Some(output) => {
            output.copy_from_slice(text.as_bytes());
            (text.len() as u64) << 16
        }
        None => 13,
    }
}

/// Writes the image of a text's graph. Answers 0 and, in the highest 16 bits, the image's length, or refusal
/// 15, 11, 3 or 13; which rule is broken it does not tell.
pub fn read_triples<R: Rival>(text: &[u8], output: &mut [u8]) -> u64 {
    let words = match reading::words_of(text) {
        Some(words) => words,
        None => return 15,
    };
    match refusal_of::<R>(&words) {
        0 => image::write(&words, output).map_or(13, |length| accepted([0, 0, length])),
        refusal => refusal,
    }
}

/// 11 or 3 for ascending words of facts, or 0.
fn refusal_of<R: Rival>(words: &[u32]) -> u64 {
    if words.len() > MOST_WORDS {
        11
    } else if R::check(words) == 0 {
        0
    } else {
        3
    }
}
