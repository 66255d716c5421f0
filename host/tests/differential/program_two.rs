//! Program two on images, whole and damaged.

use crate::generator::damage::{damaged, each_contents_byte_changed};
use crate::generator::graphs::{image, some_image_of, ten_entries};
use crate::generator::tickets::{ALL_IDS, FEW, MANY};
use crate::generator::{graphs, rounds, Random};
use crate::independent::programs::print_facts;
use crate::process::Program;

fn assert_same(program: &Program, image: &[u8]) {
    assert_eq!(program.output(image), print_facts(image), "{image:02x?}");
}

#[test]
fn on_images_and_damaged_images() {
    let program = Program::two();
    let mut random = Random::for_test("program_two_on_images");
    for round in 0..rounds(250) {
        let grown = graphs::grown(&mut random, &ALL_IDS[round % 4], 40, 2048);
        let whole = some_image_of(&mut random, &grown);
        assert_same(&program, &whole);
        for graph in [graphs::disturbed(&mut random, &FEW, 50), graphs::marked(&mut random, &FEW)] {
            assert_same(&program, &some_image_of(&mut random, &graph));
        }
        for _ in 0..6 {
            assert_same(&program, &damaged(&mut random, &whole));
        }
    }
}

#[test]
fn on_every_length_and_on_full_images() {
    let program = Program::two();
    let mut random = Random::for_test("program_two_on_every_length");
    let graph = graphs::filled(&mut random, 150);
    for whole in [image(&graph), ten_entries(&graph)] {
        for length in 0..=whole.len() {
            assert_same(&program, &whole[..length]);
        }
        for more in [1, 5_000, 70_000] {
            assert_same(&program, &[whole.as_slice(), &vec![0; more]].concat());
        }
    }
    for facts in [2047, 2048, 2049] {
        let graph = graphs::filled(&mut random, facts);
        assert_same(&program, &image(&graph));
        assert_same(&program, &ten_entries(&graph));
    }
}

#[test]
fn on_changed_contents() {
    let program = Program::two();
    let mut random = Random::for_test("program_two_on_changed_contents");
    let graph = graphs::grown(&mut random, &MANY, 40, 2048);
    for whole in [image(&graph), ten_entries(&graph)] {
        for changed in each_contents_byte_changed(&whole) {
            assert_same(&program, &changed);
        }
    }
}

#[test]
fn on_overlong_images() {
    let program = Program::two();
    assert_eq!(program.output(&image(&graphs::overlong())), "");
}
