//! Texts of triples on the independent implementation: changed, cut off, of too many facts, and the converse,
//! by trying the line of every fact.

mod generator;
mod independent;

use generator::graphs::grown;
use generator::inside::INSIDE;
use generator::outside::OUTSIDE;
use generator::tickets::{ALL_IDS, FEW, SHARED};
use generator::triples::*;
use generator::{rounds, Random};
use independent::fact::*;
use independent::graph::Graph;
use independent::plain_triples::graph_read;
use independent::table::{facts_of, store, MOST_WORDS};
use independent::triples::*;

fn table_of(graph: &Graph, words: usize) -> Vec<u32> {
    let mut table = vec![0; words];
    store(graph, &mut table);
    table
}

fn random_graph(random: &mut Random, round: usize) -> Graph {
    grown(random, &ALL_IDS[round % 4], round % 60, MOST_WORDS)
}

/// The answer of reading a text into 2,048 words, and the graph that they then hold; refused, they are as
/// lent.
fn read(text: &[u8]) -> (u8, Option<Graph>) {
    let mut table = vec![9; MOST_WORDS];
    match read_triples(text, &mut table) {
        0 => (0, Some(facts_of(&table).expect("the table is laid out"))),
        refusal => {
            assert!(table.iter().all(|word| *word == 9));
            (refusal, None)
        }
    }
}

#[test]
fn changes_to_outside_the_profile_are_refusal_15() {
    let mut random = Random::for_test("triples_outside");
    for (name, change) in OUTSIDE {
        for round in 0..rounds(60) {
            let graph = random_graph(&mut random, round);
            let mut lines = shuffled_lines(&mut random, &graph);
            if random.is_one_in(10) {
                lines.clear();
            }
            change(&mut random, &mut lines);
            let text = lines.concat();
            assert_eq!(read(text.as_bytes()), (15, None), "{name}: {text}");
        }
    }
}

#[test]
fn changes_within_the_profile_leave_each_line_inside() {
    let mut random = Random::for_test("triples_inside");
    let mut met = [0; 16];
    for (name, change) in INSIDE {
        for round in 0..rounds(100) {
            let graph = random_graph(&mut random, round);
            let mut lines = shuffled_lines(&mut random, &graph);
            change(&mut random, &mut lines);
            for line in &lines {
                assert!(facts_in_text(line.as_bytes()).is_some(), "{name}: {line}");
            }
            met[usize::from(read(lines.concat().as_bytes()).0)] += 1;
        }
    }
    assert!(met[0] > 50 && met[3] > 500 && met[15] > 0, "{met:?}");
}

/// A text is read exactly if its lines are those of a consistent graph that fits and has no lone literal.
#[test]
fn the_converse_holds() {
    let mut random = Random::for_test("triples_converse");
    let mut met = [0; 16];
    for round in 0..rounds(3_000) {
        let text = some_text(&mut random, [&SHARED, &FEW][round % 2]);
        let words = 1 + random.below(60);
        let mut table = vec![9; words];
        let answer = read_triples(&text, &mut table);
        met[usize::from(answer)] += 1;
        let expected = graph_read(&text, words).map(|graph| table_of(&graph, words));
        let found = (answer == 0).then_some(table);
        assert_eq!(found, expected, "{}", String::from_utf8_lossy(&text));
    }
    assert!([0, 3, 11, 15].iter().all(|answer| met[*answer] > 100), "{met:?}");
}

/// A text with any byte from a place on changed, put in or taken out is read as the graph of its lines or
/// refused.
fn same_when_changed(text: &str, from: usize) {
    assert_eq!(read(text.as_bytes()).0, 0);
    for place in from..text.len() {
        let (before, after) = text.as_bytes().split_at(place);
        let same = |changed: &[u8]| assert_eq!(read(changed).1, graph_read(changed, MOST_WORDS));
        same(before);
        same(&[before, &after[1..]].concat());
        same(&[before, &after[..1], after].concat());
        for byte in [0, b' ', b'\n', b'\r', b'0', b'1', b'2', b'.', b'<', after[0] ^ 0x20, after[0] ^ 0x80] {
            same(&[before, &[byte], &after[1..]].concat());
            same(&[before, &[byte], after].concat());
        }
    }
}

#[test]
fn every_byte_changed() {
    let text = text_of(&Graph::of([class(0), class(2), subclass(2, 0), individual(12), member(12, 0)]));
    same_when_changed(&text, 0);
}

#[test]
fn every_byte_of_an_exclusive_line_changed() {
    let graph = Graph::of([class(0), property(25), domain(25, 0), range(25, MARK), exclusive(25)]);
    let lines = lines_of(&graph);
    let last = lines.last().expect("Excl has a line");
    same_when_changed(&lines.concat(), lines.concat().len() - last.len());
}

#[test]
fn crowded_texts_have_their_answers() {
    let mut random = Random::for_test("triples_crowded");
    for (text, answer) in crowded_texts(&mut random) {
        assert_eq!(read(text.as_bytes()).0, answer);
    }
}
