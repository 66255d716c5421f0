//! The check of an image across the C interface.

use crate::generator::damage::{damaged, each_contents_byte_changed};
use crate::generator::graphs::{broken, filled, grown, image, marked, overlong, some_image_of, ten_entries};
use crate::generator::tickets::{ALL_IDS, FEW, MANY, SHARED};
use crate::generator::{rounds, Random};
use crate::guarded::same_check;
use crate::independent::fact::*;
use crate::independent::graph::Graph;
use crate::independent::{plain, rules};
use crate::vector_files::{image_cases, ImageCase};

/// The check's number where the rule at a place is the first that is broken.
fn broken_at(place: usize) -> u64 {
    3 | (place as u64) << 16
}

/// Classes 2 and 3, the second under the first; property 5 from class 2 to class 2, property 6 to literals;
/// individual 8 in class 2; literal 10.
fn plant() -> Graph {
    let classes = [class(0), class(2), class(3), subclass(2, 0), subclass(3, 0), subclass(3, 2)];
    let properties = [ends(5, 2, 2), ends(6, 2, MARK)].concat();
    let others = [individual(8), literal(10), member(8, 0), member(8, 2)];
    Graph::of(classes.into_iter().chain(properties).chain(others))
}

/// A property with its domain and range.
fn ends(p: u8, from: u8, to: u8) -> [Fact; 3] {
    [property(p), domain(p, from), range(p, to)]
}

/// An individual of no class but Resource.
fn loose(x: u8) -> [Fact; 2] {
    [individual(x), member(x, RESOURCE)]
}

/// The plant with more facts.
fn with(facts: &[Fact]) -> Graph {
    let mut graph = plant();
    graph.put(facts.iter().copied());
    graph
}

/// For each rule, in the documents' order, a graph that breaks it and none before it.
fn one_for_each_rule() -> [Graph; 30] {
    [
        with(&[property(3)]),                              // 4
        with(&[individual(3)]),                            // 5
        with(&[individual(5)]),                            // 6
        with(&[subclass(20, 0)]),                          // 7
        with(&[subproperty(5, 20)]),                       // 8
        with(&[domain(20, 2)]),                            // 9
        with(&[range(20, MARK)]),                          // 10
        with(&[member(20, 0)]),                            // 11
        with(&[value(8, 20, 5)]),                          // 12
        with(&[class(20)]),                                // 13
        with(&[individual(20)]),                           // 14
        with(&[property(20), domain(20, 2)]),              // 15
        with(&[domain(5, 3)]),                             // 16
        with(&[range(5, MARK)]),                           // 17
        with(&[class(4), subclass(4, 0), subclass(4, 3)]), // 18
        with(&[subclass(2, 2)]),                           // 19
        with(&[&ends(7, 2, 2)[..], &ends(9, 2, 2), &[subproperty(5, 7), subproperty(7, 9)]].concat()), // 20
        with(&[subproperty(5, 5)]),                        // 21
        with(&[&ends(7, 3, 2)[..], &[subproperty(5, 7)]].concat()), // 22
        with(&[&ends(7, 2, 3)[..], &[subproperty(5, 7)]].concat()), // 23
        with(&[&loose(9)[..], &[value(9, 8, 5)]].concat()), // 24
        with(&[&loose(9)[..], &[value(8, 9, 5)]].concat()), // 25
        with(&[&loose(9)[..], &[member(9, 3)]].concat()),  // 26
        with(&[&ends(7, 2, 2)[..], &[subproperty(5, 7), value(8, 8, 5)]].concat()), // 27
        Graph::of([literal(10)]),                          // H1
        with(&[literal(3)]),                               // H2
        with(&[value(8, 8, 6)]),                           // H3
        with(&[subproperty(5, 6)]),                        // H4
        with(&[exclusive(8)]),                             // E1
        with(&[&loose(9)[..], &[member(9, 2), value(8, 8, 5), value(9, 8, 5), exclusive(5)]].concat()), // E2
    ]
}

#[test]
fn tells_each_rule_of_a_plant() {
    assert_eq!(same_check(&image(&plant())), 0);
    for (rule, graph) in one_for_each_rule().iter().enumerate() {
        assert_eq!(same_check(&image(graph)), broken_at(rule + 1), "{graph:?}");
    }
}

/// Graphs that break one rule or several: each of the 30 is the first now and then.
#[test]
fn tells_each_rule_of_broken_graphs() {
    let mut random = Random::for_test("check_of_broken_graphs");
    let mut met = [0; 31];
    for round in 0..rounds(6_000) {
        let graph = broken(&mut random, [&SHARED, &FEW, &MANY][round % 3]);
        let number = same_check(&image(&graph));
        met[(number >> 16) as usize] += 1;
    }
    assert!(met.iter().all(|count| *count > 0), "{met:?}");
}

/// The place by the rules' demands is the place by the rules read as statements about all ids.
#[test]
fn two_readings_give_the_same_rule() {
    let mut random = Random::for_test("check_by_two_readings");
    for round in 0..rounds(1_500) {
        let graph = broken(&mut random, [&SHARED, &FEW][round % 2]);
        let place = rules::first_broken(&graph).map(rules::place_of);
        assert_eq!(place, plain::first_broken(&graph), "{graph:?}");
    }
}

/// The check got past a place, counted from 1: it answers 0, or names a rule after it.
fn got_past(number: u64, place: usize) -> bool {
    number == 0 || place < (number >> 16) as usize
}

/// Ask 4 of document 02: the check gets past each rule exactly if the graph meets it and all before it.
#[test]
fn gets_past_each_rule_exactly_if_it_and_all_before_are_met() {
    let mut random = Random::for_test("check_gets_past");
    for round in 0..rounds(600) {
        let graph = broken(&mut random, [&SHARED, &FEW][round % 2]);
        let (number, met) = (same_check(&image(&graph)), plain::met(&graph));
        for place in 1..=30 {
            let met_so_far = met[..place].iter().all(|is_met| *is_met);
            assert_eq!(got_past(number, place), met_so_far, "{place} {graph:?}");
        }
    }
}

/// Of two graphs, each of which breaks a rule, the facts of both: the check stops at the earlier of the rules
/// that are broken. Each rule but the last is told while a later one is broken too; H1 is so where nothing
/// but Excl stands.
#[test]
fn tells_the_earlier_of_two() {
    assert_eq!(same_check(&image(&Graph::of([exclusive(8)]))), broken_at(25));
    let graphs = one_for_each_rule();
    let mut told = [0; 31];
    for (at, one) in graphs.iter().enumerate() {
        for other in &graphs[at + 1..] {
            let both = Graph::of(one.facts().chain(other.facts()));
            let met = plain::met(&both);
            // A fact of one graph can be what the other lacks.
            if let Some(first) = met.iter().position(|is_met| !is_met) {
                assert_eq!(same_check(&image(&both)), broken_at(first + 1), "{both:?}");
                told[first + 1] += usize::from(met[first + 1..].contains(&false));
            }
        }
    }
    assert!((1..30).all(|place| place == 25 || told[place] > 0), "{told:?}");
}

#[test]
fn accepts_consistent_graphs() {
    let mut random = Random::for_test("check_of_consistent_graphs");
    for round in 0..rounds(200) {
        let graph = grown(&mut random, &ALL_IDS[round % 4], round % 60, 2048);
        assert_eq!(same_check(&image(&graph)), 0);
        assert_eq!(same_check(&ten_entries(&graph)), 0);
    }
}

#[test]
fn on_damaged_images() {
    let mut random = Random::for_test("check_of_damaged_images");
    let mut met = [0; 13];
    for round in 0..rounds(400) {
        let graph = grown(&mut random, &ALL_IDS[round % 4], 30, 2048);
        let whole = some_image_of(&mut random, &graph);
        for _ in 0..6 {
            let number = same_check(&damaged(&mut random, &whole));
            met[usize::from(number as u16)] += 1;
        }
        assert_eq!(same_check(&image(&marked(&mut random, &FEW))) as u16 % 12, 0);
    }
    assert!([0, 3, 12].iter().all(|number| met[*number] > 5), "{met:?}");
}

#[test]
fn on_changed_contents() {
    let mut random = Random::for_test("check_of_changed_contents");
    let graph = grown(&mut random, &MANY, 40, 2048);
    for whole in [image(&graph), ten_entries(&graph)] {
        for changed in each_contents_byte_changed(&whole) {
            same_check(&changed);
        }
    }
}

#[test]
fn on_every_image_length() {
    let mut random = Random::for_test("check_of_every_image_length");
    let graph = filled(&mut random, 300);
    for whole in [image(&graph), ten_entries(&graph)] {
        for length in 0..whole.len() {
            assert_eq!(same_check(&whole[..length]), 12);
        }
        assert_eq!(same_check(&whole), 0);
    }
}

/// The vectors: tables that are made of facts, as images, with the rule that each breaks, and images into as
/// many words as the check has.
#[test]
fn on_the_image_cases() {
    for case in image_cases() {
        match case {
            ImageCase::Check { name, words, answer: 0 | 3, broken, .. } => {
                let facts = words.iter().filter_map(|word| Fact::of_word(*word));
                let number = same_check(&image(&Graph::of(facts)));
                let place = (1..=30).find(|place| number == broken_at(*place));
                let rule = (4..=106).find(|rule| is_rule(*rule) && place == Some(rules::place_of(*rule)));
                assert_eq!(rule.map(rules::name_of).as_deref(), broken, "{name}");
            }
            ImageCase::Read { name, image, lent: 2048, answer, .. } => {
                assert_eq!(same_check(&image) as u16, answer.into(), "{name}");
            }
            _ => {}
        }
    }
}

fn is_rule(number: u8) -> bool {
    matches!(number, 4..=27 | 101..=106)
}

/// More facts than a table has words give 11, whether or not a rule is broken; one byte off gives 12.
#[test]
fn on_full_and_overlong_images() {
    let mut random = Random::for_test("check_of_full_images");
    for (facts, answer) in [(2047, 0), (2048, 0), (2049, 11)] {
        let graph = filled(&mut random, facts);
        assert_eq!(same_check(&image(&graph)), answer);
        let last = graph.facts().last().expect("the graph is full");
        assert_eq!(same_check(&image(&graph.without(class(0)))) as u16, 3);
        same_check(&image(&graph.without(last)));
    }
    let whole = image(&overlong());
    assert_eq!(same_check(&whole), 11);
    assert_eq!(same_check(&whole[1..]), 12);
    assert_eq!(same_check(&whole[..whole.len() - 1]), 12);
}
