//! The vectors of triples, and the W3C N-Triples suite, through the host's calls.

use crate::generator::graphs::image;
use crate::guarded_triples::{same_read, same_written};
use crate::independent::fact::Fact;
use crate::independent::graph::Graph as Facts;
use crate::independent::table::MOST_WORDS;
use crate::vector_files::{ntriples_files, triples_cases, TriplesCase};
use vimelosa_host::{Graph, Refusal, LONGEST_IMAGE};

fn facts(words: &[u32]) -> Facts {
    Facts::of(words.iter().map(|word| Fact::of_word(*word).expect("the word is a fact")))
}

/// Those that lend 2,048 words, or a table that reads them.
#[test]
fn give_their_answers() {
    for case in triples_cases() {
        match case {
            TriplesCase::Read { name, text, lent, answer, words } if lent == MOST_WORDS || answer == 0 => {
                let (number, output) = same_read(&text, LONGEST_IMAGE);
                assert_eq!(number as u16, answer.into(), "{name}");
                if answer == 0 {
                    assert_eq!(output[..(number >> 48) as usize], image(&facts(&words)), "{name}");
                }
            }
            TriplesCase::Read { .. } => {}
            TriplesCase::Write { name, words, lent, answer, text } => {
                let (number, output) = same_written(&image(&facts(&words)), lent);
                assert_eq!((number as u16, (number >> 16) as usize), (answer.into(), text.len()), "{name}");
                assert_eq!(output[..text.len()], text, "{name}");
            }
        }
    }
}

/// `Graph::from_triples` and `Graph::to_triples` on the same.
#[test]
fn make_their_graphs() {
    for case in triples_cases() {
        match case {
            TriplesCase::Read { name, text, answer: 0, words, .. } => {
                let expected = Graph::load(&image(&facts(&words))).expect("the graph is consistent");
                assert_eq!(Graph::from_triples(&text), Ok(expected), "{name}");
            }
            TriplesCase::Read { name, text, answer, lent: MOST_WORDS, .. } => {
                let refused = Graph::from_triples(&text).map_err(Refusal::number);
                assert_eq!(refused, Err(answer.into()), "{name}");
            }
            TriplesCase::Write { name, words, answer: 0, text, .. } => {
                let graph = Graph::load(&image(&facts(&words))).expect("the graph is consistent");
                assert_eq!(graph.to_triples().into_bytes(), text, "{name}");
            }
            _ => {}
        }
    }
}

#[test]
fn of_the_suite_are_outside_the_profile() {
    for file in ntriples_files() {
        let (number, _) = same_read(&file.text, LONGEST_IMAGE);
        assert_eq!(number as u16, file.answer.into(), "{}", file.name);
        let refused = Graph::from_triples(&file.text).map_err(Refusal::number);
        assert_eq!(refused, Err(file.answer.into()), "{}", file.name);
    }
}
