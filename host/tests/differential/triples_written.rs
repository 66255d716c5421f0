//! Images written as texts across the C interface.

use crate::generator::damage::{damaged, each_contents_byte_changed};
use crate::generator::graphs::{broken, filled, grown, image, marked, overlong, some_image_of, ten_entries};
use crate::generator::tickets::{ALL_IDS, FEW, MANY, SHARED};
use crate::generator::triples::{full, longest_text, LONGEST_CONSISTENT_TEXT};
use crate::generator::{rounds, Random};
use crate::guarded_triples::{same_read, same_written};
use crate::independent::graph::Graph;
use crate::independent::table::fresh_graph;
use crate::independent::triples::{text_of, without_lone_literals};
use vimelosa_host::{LONGEST_IMAGE, LONGEST_LINE, LONGEST_TEXT, MOST_FACTS};

#[test]
fn lengths_are_those_of_the_profile() {
    assert_eq!((LONGEST_LINE, LONGEST_TEXT), (154, MOST_FACTS * LONGEST_LINE));
}

/// The text of a consistent graph, with the output exactly as long, a byte short, and longer.
fn written(random: &mut Random, graph: &Graph) -> Vec<u8> {
    let (image, length) = (image(graph), text_of(graph).len());
    let accepted = (length as u64) << 16;
    assert_eq!(same_written(&image, length - 1).0, 13);
    assert_eq!(same_written(&image, random.below(length)).0, 13);
    assert_eq!(same_written(&image, length + 1 + random.below(40)).0, accepted);
    let (number, output) = same_written(&image, length);
    assert_eq!(number, accepted);
    output
}

#[test]
fn on_consistent_graphs() {
    let mut random = Random::for_test("triples_written");
    for round in 0..rounds(600) {
        let graph = grown(&mut random, &ALL_IDS[round % 4], round % 60, 2048);
        let text = written(&mut random, &graph);
        assert_eq!(same_written(&image(&graph), LONGEST_TEXT).0, (text.len() as u64) << 16);
    }
}

/// What is written is read again, without the literals that are in no value.
#[test]
fn and_read_again() {
    let mut random = Random::for_test("triples_written_and_read");
    for round in 0..rounds(300) {
        let graph = grown(&mut random, &ALL_IDS[round % 4], 40, 2048);
        let text = written(&mut random, &graph);
        let expected = image(&without_lone_literals(&graph));
        let (number, output) = same_read(&text, expected.len());
        assert_eq!((number >> 48, output), (expected.len() as u64, expected));
    }
}

#[test]
fn with_every_output_length() {
    let mut random = Random::for_test("triples_written_every_length");
    for graph in [fresh_graph(), grown(&mut random, &FEW, 12, 20)] {
        let (image, length) = (image(&graph), text_of(&graph).len());
        for short in 0..length {
            assert_eq!(same_written(&image, short).0, 13);
        }
        for long in length..length + 4 {
            assert_eq!(same_written(&image, long).0, (length as u64) << 16);
        }
    }
}

#[test]
fn on_damaged_images() {
    let mut random = Random::for_test("triples_written_damaged");
    let mut met = [0; 14];
    for round in 0..rounds(300) {
        let graph = grown(&mut random, &ALL_IDS[round % 4], 30, 200);
        let whole = some_image_of(&mut random, &graph);
        for _ in 0..4 {
            let length = random.pick(&[0, 145, 1_000, 40_000]);
            let image = if random.is_one_in(5) { whole.clone() } else { damaged(&mut random, &whole) };
            let (number, _) = same_written(&image, length);
            met[usize::from(number as u16)] += 1;
        }
        same_written(&image(&broken(&mut random, [&SHARED, &FEW, &MANY][round % 3])), 40_000);
        same_written(&image(&marked(&mut random, &FEW)), 40_000);
    }
    assert!([0, 3, 12, 13].iter().all(|number| met[*number] > 5), "{met:?}");
}

#[test]
fn on_changed_contents_and_every_image_length() {
    let mut random = Random::for_test("triples_written_changed_contents");
    let graph = grown(&mut random, &MANY, 40, 2048);
    for whole in [image(&graph), ten_entries(&graph)] {
        for changed in each_contents_byte_changed(&whole) {
            same_written(&changed, 40_000);
        }
        for length in 0..whole.len() {
            assert_eq!(same_written(&whole[..length], 40_000).0, 12);
        }
        assert_eq!(same_written(&whole, 40_000).0 as u16, 0);
    }
}

/// The longest text there is, full tables, and more facts than a table has words.
#[test]
fn on_full_and_overlong_images() {
    let mut random = Random::for_test("triples_written_full");
    assert_eq!(written(&mut random, &longest_text()).len(), LONGEST_CONSISTENT_TEXT);
    for facts in [2047, 2048] {
        let graph = filled(&mut random, facts);
        written(&mut random, &graph);
        let graph = full(&mut random, facts);
        written(&mut random, &graph);
    }
    assert_eq!(same_written(&image(&full(&mut random, 2049)), LONGEST_TEXT).0, 11);
    let whole = image(&overlong());
    assert_eq!(same_written(&whole, LONGEST_TEXT).0, 11);
    assert_eq!(same_written(&whole[1..], LONGEST_TEXT).0, 12);
    assert!(whole.len() > LONGEST_IMAGE);
}
