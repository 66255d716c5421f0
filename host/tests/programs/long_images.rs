//! Program two on images about as long as a page of 4,096 bytes, on the longest and on longer ones, whole and
//! damaged.

use crate::generator::graphs::{grown, image, of_length, LONGEST_CONSISTENT};
use crate::generator::tickets::MANY;
use crate::generator::Random;
use crate::independent::graph::Graph;
use crate::independent::programs::print_facts;
use crate::independent::table::{fresh_graph, MOST_WORDS};
use crate::process::{odd_pieces, Fed, Program};
use crate::same::assert_same;
use vimelosa_host::LONGEST_IMAGE;

/// The shortest image of a consistent graph, lengths around a page of 4,096 bytes, and the longest.
const LENGTHS: [usize; 6] = [69, 4_095, 4_096, 4_097, 4_988, LONGEST_CONSISTENT];

/// A good image of each length: of trees with properties, members and values where there is room, of values
/// alone where there is not.
fn good_images(random: &mut Random) -> Vec<Vec<u8>> {
    LENGTHS.iter().map(|length| image(&graph_of_length(random, *length))).collect()
}

fn graph_of_length(random: &mut Random, length: usize) -> Graph {
    match length {
        69 => fresh_graph(),
        LONGEST_CONSISTENT => of_length(random, &fresh_graph(), length),
        _ => {
            let start = grown(random, &MANY, 100, 400);
            of_length(random, &start, length)
        }
    }
}

/// Images that print nothing: the one without facts; each good one with a byte more, with so many that no
/// image is as long, and cut off; well-formed ones that are too long for 2,048 facts.
fn bad_images(random: &mut Random) -> Vec<Vec<u8>> {
    let mut bad = vec![Vec::new(), image(&Graph::of([]))];
    for good in good_images(random) {
        let longer = [good.len() + 1, LONGEST_IMAGE, LONGEST_IMAGE + 1, LONGEST_IMAGE + 2, 70_000];
        bad.extend(longer.map(|length| with_length(&good, length)));
        let shorter = [good.len() - 1, good.len() / 2, 4_095, 4_096, 68, 67, 62, 61, 1];
        bad.extend(
            shorter.iter().filter(|length| **length < good.len()).map(|length| with_length(&good, *length)),
        );
    }
    let overfull = [LONGEST_IMAGE - 1, LONGEST_IMAGE, LONGEST_IMAGE + 1];
    bad.extend(overfull.map(|length| image(&of_length(random, &fresh_graph(), length))));
    bad
}

/// The image cut off, or with zeros at its end.
fn with_length(image: &[u8], length: usize) -> Vec<u8> {
    let mut bytes = image.to_vec();
    bytes.resize(length, 0);
    bytes
}

/// Program two prints for each image what the independent implementation prints, and nothing on standard
/// error.
fn assert_images<'a>(images: &'a [Vec<u8>], mut fed: impl FnMut(&'a [u8]) -> Fed<'a>) {
    let program = Program::two();
    for image in images {
        let name = format!("an image of {} bytes", image.len());
        assert_same(&program.output_of(fed(image)), &print_facts(image), &name);
    }
}

/// What the tests below rest on: the good images have their lengths and, but for the shortest, more than
/// 1,024 facts, the longest has 2,048; the bad ones print nothing.
#[test]
fn images_have_their_lengths_and_facts() {
    let mut random = Random::for_test("long_images");
    let good = good_images(&mut random);
    assert!(good.iter().map(Vec::len).eq(LENGTHS));
    assert!(good.iter().all(|image| !print_facts(image).is_empty()));
    let facts = |image: &Vec<u8>| print_facts(image).lines().count();
    assert_eq!((facts(&good[0]), facts(&good[5])), (1, MOST_WORDS));
    assert!(good[1..].iter().all(|image| facts(image) > 1_024));
    let bad = bad_images(&mut random);
    assert!(bad.iter().all(|image| print_facts(image).is_empty()));
    assert!([68, 6_212, 6_213, 6_214, 70_000]
        .iter()
        .all(|length| bad.iter().any(|image| image.len() == *length)));
}

/// Sees a program with an input of 4,096 bytes, or of any number below the longest image's; one with a table
/// of 1,024 or of any number below 2,048 words; one that prints on standard error.
#[test]
fn good_from_a_file() {
    let mut random = Random::for_test("long_images_from_a_file");
    assert_images(&good_images(&mut random), Fed::File);
}

/// Sees the same as `good_from_a_file` where the input is a pipe.
#[test]
fn good_from_a_pipe() {
    let mut random = Random::for_test("long_images_from_a_pipe");
    assert_images(&good_images(&mut random), |input| Fed::Pipe(vec![input]));
}

/// Sees moreover a program that takes a short read for the end of the input.
#[test]
fn good_from_a_pipe_in_odd_pieces() {
    let mut random = Random::for_test("long_images_in_odd_pieces");
    let images = good_images(&mut random);
    assert_images(&images, |input| Fed::Pipe(odd_pieces(&mut random, input)));
}

/// Sees a program that cuts its input off after 4,096 bytes, where an image with a byte more looks good; one
/// that does not look at what comes after the image; one that prints facts before it knows that the image is
/// whole.
#[test]
fn bad_from_a_file_and_from_pipes() {
    let mut random = Random::for_test("bad_images");
    let images = bad_images(&mut random);
    assert_images(&images, Fed::File);
    assert_images(&images, |input| Fed::Pipe(vec![input]));
    assert_images(&images, |input| Fed::Pipe(odd_pieces(&mut random, input)));
}
