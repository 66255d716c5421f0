//! The texts of N-Triples that are written and read: those of the plant graphs, and the longest of all.

use crate::rivals::fact::*;
use crate::rivals::sorted::Sorted;
use crate::rivals::Rival;
use crate::sequence::Sequence;
use crate::subjects::Subject;
use vimelosa_host::{write_triples, LONGEST_TEXT};

/// No text of a consistent graph is longer.
const LONGEST: usize = 189_256;

/// A graph's image, its text, and the image of what the text tells.
#[derive(Clone)]
pub struct Text {
    pub name: String,
    pub image: Vec<u8>,
    pub text: Vec<u8>,
    /// All facts but the literals that are in no value, which have no line.
    pub image_told: Vec<u8>,
    pub facts_told: usize,
}

impl Text {
    /// The text of the fresh graph.
    pub fn fresh() -> Text {
        Text::of("one line".to_string(), &Sorted::fresh())
    }

    pub fn of_subject(subject: &Subject) -> Text {
        let table = Sorted::read(subject.image()).expect("the image is good");
        Text::of(format!("{}, {} facts", subject.name, subject.facts), &table)
    }

    /// The text of a full table with the longest lines: each id but that of Resource is a property from
    /// Resource to Resource, and links between those of three digits fill the rest.
    pub fn longest() -> Text {
        let mut table = Sorted::fresh();
        let properties = (2..=255).map(|p| [1, PROPERTY, p, RESOURCE, RESOURCE]);
        let links = (100..=245).flat_map(|low| (246..=255).map(move |high| [1, SUBPROPERTY, low, high, 0]));
        for ticket in properties.chain(links) {
            if table.count_facts() < MOST_WORDS {
                assert_eq!(table.apply(&ticket).number, 0);
            }
        }
        let longest = Text::of(format!("longest, {MOST_WORDS} facts"), &table);
        assert_eq!(longest.text.len(), LONGEST);
        longest
    }

    fn of(name: String, table: &Sorted) -> Text {
        let (image, mut text) = (table.image(), vec![0; LONGEST_TEXT]);
        let length = write_triples(&image, &mut text).expect("the image is good");
        text.truncate(length);
        let told = without_lone_literals(table);
        Text { name, image, text, image_told: told.image(), facts_told: told.count_facts() }
    }

    /// The same lines in another order.
    pub fn shuffled(&self) -> Text {
        let mut lines: Vec<&[u8]> = self.lines().collect();
        Sequence::of_seed(1).shuffle(&mut lines);
        Text { name: format!("{}, shuffled", self.name), text: lines.concat(), ..self.clone() }
    }

    /// The lines, each with its newline.
    pub fn lines(&self) -> impl Iterator<Item = &[u8]> {
        self.text.split_inclusive(|byte| *byte == b'\n')
    }
}

/// The table without the literals that are in no value: with them goes no other fact.
fn without_lone_literals(table: &Sorted) -> Sorted {
    let mut told = table.clone();
    let facts = || table.words().iter().map(|word| word.to_be_bytes());
    let has_value = |n: u8| facts().any(|[kind, _, b, _]| kind == VALUE && b == n);
    for [kind, n, ..] in facts() {
        if kind == LITERAL && !has_value(n) {
            assert_eq!(told.apply(&[2, LITERAL, n, 0, 0]).removed, 1);
        }
    }
    told
}
