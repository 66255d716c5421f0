//! Images on the independent implementation: round trips, damage, and the text of the documents once more.

mod generator;
mod independent;

use generator::damage::damaged;
use generator::tickets::{ALL_IDS, FEW};
use generator::{graphs, rounds, Random};
use independent::fact::*;
use independent::graph::Graph;
use independent::image::{body, facts_in, image_of, image_with, read, write};
use independent::table::{facts_of, store, MOST_WORDS};

fn table_of(graph: &Graph, words: usize) -> Vec<u32> {
    let mut table = vec![0; words];
    store(graph, &mut table);
    table
}

fn random_graph(random: &mut Random, round: usize) -> Graph {
    graphs::grown(random, &ALL_IDS[round % 4], 40, MOST_WORDS)
}

/// The documents' sentences on images, one after the other.
fn is_well_formed(image: &[u8]) -> bool {
    let bodies_from = match image {
        [1, 10, ..] => 62,
        [1, 11, ..] => 68,
        _ => return false,
    };
    if image.len() < bodies_from {
        return false;
    }
    let mut end = bodies_from;
    for kind in 1..=image[1] {
        let entry = &image[usize::from(kind) * 6 - 4..][..6];
        let width = [1, 1, 1, 1, 2, 2, 2, 2, 2, 3, 1][usize::from(kind) - 1];
        let start = usize::from(entry[2]) + 256 * usize::from(entry[3]);
        let count = usize::from(entry[4]) + 256 * usize::from(entry[5]);
        if entry[0] != kind || usize::from(entry[1]) != width || start != end {
            return false;
        }
        end += count * width;
        if end > image.len() || !is_body(kind, &image[start..end], width) {
            return false;
        }
    }
    end == image.len()
}

/// Ascending, none twice, each a fact.
fn is_body(kind: u8, body: &[u8], width: usize) -> bool {
    let facts: Vec<&[u8]> = body.chunks(width).collect();
    let marked = |ids: &[u8]| ids.iter().enumerate().any(|(i, id)| *id == 1 && (kind, i) != (8, 1));
    facts.windows(2).all(|pair| pair[0] < pair[1]) && !facts.iter().any(|ids| marked(ids))
}

#[test]
fn what_is_written_is_read_again() {
    let mut random = Random::for_test("what_is_written_is_read_again");
    for round in 0..rounds(150) {
        let graph = random_graph(&mut random, round);
        let table = table_of(&graph, graph.len() + random.below(3));
        let mut output = vec![0xa5; 68 + 3 * graph.len()];
        let (number, length) = write(&table, &mut output);
        assert_eq!(number, 0);
        assert!(output[length..].iter().all(|byte| *byte == 0xa5));
        assert!(is_well_formed(&output[..length]));
        let mut again = vec![9; table.len()];
        assert_eq!(read(&output[..length], &mut again), 0);
        assert_eq!(again, table);
    }
}

/// An image with ten entries is read as the facts without Excl, and never written.
#[test]
fn images_with_ten_entries_have_no_exclusive() {
    let mut random = Random::for_test("images_with_ten_entries");
    let mut with_exclusive = 0;
    for round in 0..rounds(150) {
        let graph = random_graph(&mut random, round);
        let exclusive: Vec<Fact> = graph.of_kind(EXCLUSIVE).collect();
        let mut bare = graph.clone();
        bare.take(exclusive.iter().copied());
        let fewer = image_with(10, &graph).unwrap();
        assert!(is_well_formed(&fewer) && fewer[..2] == [1, 10]);
        assert_eq!(fewer.len() + 6 + exclusive.len(), image_of(&graph).unwrap().len());
        let mut table = vec![9; bare.len()];
        assert_eq!(read(&fewer, &mut table), 0);
        assert_eq!(facts_of(&table), Ok(bare));
        let mut output = vec![0; fewer.len() + 6];
        assert_eq!(write(&table, &mut output), (0, fewer.len() + 6));
        assert_eq!(output[..2], [1, 11]);
        with_exclusive += usize::from(!exclusive.is_empty());
    }
    assert!(with_exclusive > 30, "{with_exclusive}");
}

#[test]
fn bodies_hold_the_facts_of_their_kinds() {
    let mut random = Random::for_test("bodies_hold_the_facts_of_their_kinds");
    for round in 0..rounds(40) {
        let graph = random_graph(&mut random, round);
        let image = image_of(&graph).unwrap();
        let fewer = image_with(10, &graph).unwrap();
        for kind in 1..=11 {
            let ids = graph.of_kind(kind).flat_map(|f| f.ids().into_iter().take(ids_of(kind)));
            let ids: Vec<u8> = ids.collect();
            assert_eq!(body(&image, kind), ids);
            assert_eq!(body(&fewer, kind), if kind == 11 { &[] } else { &ids[..] });
        }
        for kind in [0, 12, 255] {
            assert_eq!(body(&image, kind).as_ptr(), image.as_ptr_range().end);
        }
        assert_eq!(body(&fewer, 11).as_ptr(), fewer.as_ptr_range().end);
    }
}

#[test]
fn one_byte_short_is_refusal_13_and_one_word_short_11() {
    let mut random = Random::for_test("one_byte_short");
    for round in 0..rounds(40) {
        let graph = random_graph(&mut random, round);
        let image = image_of(&graph).unwrap();
        let mut output = vec![0xa5; image.len() - 1];
        assert_eq!(write(&table_of(&graph, graph.len()), &mut output), (13, 0));
        assert!(output.iter().all(|byte| *byte == 0xa5));
        let mut table = vec![9; graph.len() - 1];
        let expected = if table.is_empty() { 1 } else { 11 };
        assert_eq!(read(&image, &mut table), expected);
        assert!(table.iter().all(|word| *word == 9));
    }
}

#[test]
fn damaged_images_are_refused_or_read_as_themselves() {
    let mut random = Random::for_test("damaged_images");
    let mut seen = [0; 13];
    for round in 0..rounds(100) {
        let graph = random_graph(&mut random, round);
        for _ in 0..60 {
            let graph = match random.below(8) {
                0 => graphs::disturbed(&mut random, &FEW, 50),
                1 => graphs::marked(&mut random, &FEW),
                _ => graph.clone(),
            };
            let whole = graphs::some_image_of(&mut random, &graph);
            let bytes = if random.is_one_in(5) { whole } else { damaged(&mut random, &whole) };
            let mut table = vec![9; MOST_WORDS];
            let number = read(&bytes, &mut table);
            seen[usize::from(number)] += 1;
            assert_eq!(number == 12, !is_well_formed(&bytes));
            if number == 0 {
                assert_eq!(image_with(bytes[1], &facts_of(&table).unwrap()).unwrap(), bytes);
            } else {
                assert!(table.iter().all(|word| *word == 9));
                assert_eq!(number == 12, body(&bytes, 1).is_empty() && facts_in(&bytes).is_none());
            }
        }
    }
    assert!([0, 3, 12].iter().all(|number| seen[*number] > 20), "{seen:?}");
}

#[test]
fn every_shorter_length_is_malformed() {
    let mut random = Random::for_test("every_shorter_length");
    let graph = graphs::filled(&mut random, 300);
    for image in [graphs::image(&graph), graphs::ten_entries(&graph)] {
        for length in 0..image.len() {
            assert_eq!(read(&image[..length], &mut [0; MOST_WORDS]), 12, "{length}");
        }
        assert_eq!(read(&image, &mut [0; MOST_WORDS]), 0);
        assert_eq!(read(&[image.as_slice(), &[0]].concat(), &mut [0; MOST_WORDS]), 12);
    }
}

#[test]
fn an_image_with_2049_facts_is_refusal_11_and_one_without_resource_3() {
    let links = (0..=255u8).flat_map(|a| (2..=9).map(move |b| subclass(a, b)));
    let is_fact = |f: &Fact| f.is_fact();
    let graph = Graph::of(links.filter(is_fact).chain((2..=10).map(literal)));
    assert_eq!(graph.len(), 2049);
    let image = image_of(&graph).unwrap();
    assert_eq!(read(&image, &mut [0; MOST_WORDS]), 11);
    let image = image_of(&graph.without(literal(2))).unwrap();
    assert_eq!(read(&image, &mut [0; MOST_WORDS]), 3);
    assert_eq!(read(&image_of(&Graph::default()).unwrap(), &mut [0]), 3);
}

#[test]
fn a_graph_whose_starts_pass_16_bits_has_no_image() {
    let every = (0..=255u8).flat_map(|a| (0..=255u8).map(move |b| subclass(a, b)));
    let graph = Graph::of(every.filter(Fact::is_fact).take(40_000));
    assert_eq!(image_of(&graph), None);
}
