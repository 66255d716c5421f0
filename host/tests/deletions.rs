//! The search for the largest part, against trying every part of small graphs.

mod generator;
mod independent;

use generator::tickets::{Ids, FEW, MANY, SHARED};
use generator::{graphs, rounds, Random};
use independent::brute;
use independent::deletion::{is_kept, largest};
use independent::fact::*;
use independent::graph::Graph;
use independent::insertion::smallest;
use independent::rules::is_consistent;
use independent::table::fresh_graph;
use independent::ticket::is_guarded;

/// Facts that a ticket can delete: no domain, no range, none that refusal 8 keeps.
fn deletable(graph: &Graph) -> Vec<Fact> {
    let is_asked = |fact: &Fact| fact.kind != DOMAIN && fact.kind != RANGE;
    let can_go = |fact: &Fact| is_asked(fact) && !is_guarded(*fact);
    graph.facts().filter(can_go).collect()
}

/// Compares both for every fact that can be asked for and has few enough facts open; answers how many were
/// compared.
fn compare(graph: &Graph, most_open: usize) -> usize {
    let small = |fact: &Fact| brute::count_open(graph, *fact) <= most_open;
    let asked: Vec<Fact> = deletable(graph).into_iter().filter(small).collect();
    for fact in &asked {
        let found = largest(graph, *fact);
        assert!(found.is_some(), "no largest part: {fact:?} of {graph:?}");
        assert_eq!(found, brute::largest(graph, *fact), "{fact:?} of {graph:?}");
    }
    asked.len()
}

#[test]
fn the_search_finds_the_largest_part() {
    let mut random = Random::for_test("the_search_finds_the_largest_part");
    let mut compared = 0;
    for round in 0..rounds(150) {
        let ids = Ids { deletions: 12, ..[SHARED, FEW, MANY][round % 3] };
        let graph = graphs::grown(&mut random, &ids, 30, 18);
        compared += compare(&graph, 16);
    }
    assert!(compared > 600, "{compared}");
}

/// Members and values leave the schema alone, so that larger graphs can be tried.
#[test]
fn the_search_finds_the_largest_part_of_members_and_values() {
    let mut random = Random::for_test("the_search_finds_members_and_values");
    let mut compared = 0;
    for _ in 0..rounds(120) {
        let graph = graphs::grown(&mut random, &FEW, 30, 34);
        compared += compare(&graph, 14);
    }
    assert!(compared > 300, "{compared}");
}

/// Three properties one under the other over three classes one under the other: to take a class link away
/// leaves a choice of subproperty links, domains and properties.
fn linked_properties(ends: fn(u8, u8) -> Fact, others: fn(u8, u8) -> Fact) -> Graph {
    let mut asked = vec![subproperty(5, 6), subproperty(6, 7)];
    for step in 0..3 {
        let p = 5 + step;
        asked.extend([property(p), ends(p, 2 + step), others(p, RESOURCE)]);
    }
    smallest(&fresh_graph(), &asked).unwrap()
}

#[test]
fn a_class_link_takes_the_property_links_that_rest_on_it() {
    for graph in [linked_properties(domain, range), linked_properties(range, domain)] {
        assert_eq!(graph.len(), 22);
        let left = |fact: Fact| largest(&graph, fact).unwrap();
        assert_eq!(left(subclass(2, 3)), graph_without(&graph, &[subclass(2, 3), subproperty(5, 6)]));
        let both = [subclass(2, 4), subclass(3, 4), subproperty(5, 7), subproperty(6, 7)];
        assert_eq!(left(subclass(2, 4)), graph_without(&graph, &both));
        assert!(compare(&graph, brute::MOST_OPEN) > 5);
    }
}

fn graph_without(graph: &Graph, gone: &[Fact]) -> Graph {
    let mut rest = graph.clone();
    rest.take(gone.iter().copied());
    rest
}

/// On graphs that are not consistent the rules leave real choices, and often no part holds all the others.
#[test]
fn the_search_finds_what_trying_every_part_finds_in_any_graph() {
    let mut random = Random::for_test("the_search_in_any_graph");
    let mut found_none = 0;
    let mut compared = 0;
    while compared < rounds(300) {
        let graph = graphs::disturbed(&mut random, &FEW, 15);
        let facts: Vec<Fact> = graph.facts().collect();
        if facts.is_empty() || is_consistent(&graph) {
            continue;
        }
        let asked = random.pick(&facts);
        let found = largest(&graph, asked);
        assert_eq!(found, brute::largest(&graph, asked), "{asked:?} of {graph:?}");
        found_none += usize::from(found.is_none());
        compared += 1;
    }
    assert!(found_none > compared / 20 && found_none < compared, "{found_none}");
}

/// Refusal 8 is there for a reason: a class with another superclass cannot lose its link to Resource and keep
/// that one.
#[test]
fn a_link_to_resource_leaves_no_part() {
    let graph = smallest(&fresh_graph(), &[subclass(2, 3)]).unwrap();
    let asked = subclass(2, RESOURCE);
    assert_eq!((largest(&graph, asked), brute::largest(&graph, asked)), (None, None));
}

/// Any consistent part of the family, found by deleting more, is within the largest.
#[test]
fn the_largest_part_holds_the_parts_that_further_deletions_leave() {
    let mut random = Random::for_test("the_largest_part_holds_the_parts");
    for _ in 0..rounds(150) {
        let graph = graphs::grown(&mut random, &MANY, 50, 300);
        let asked = random.pick(&[deletable(&graph), vec![class(9)]].concat());
        let mut part = graph.clone();
        for _ in 0..4 {
            if let Some(fact) = deletable(&part).get(random.below(20)) {
                part = largest(&part, *fact).unwrap();
            }
        }
        let part = largest(&part, asked).unwrap();
        let keeps_all = graph.facts().all(|f| part.has(f) || !is_kept(asked, f));
        let best = largest(&graph, asked).unwrap();
        assert!(is_consistent(&best) && !best.has(asked));
        assert!(!keeps_all || part.is_part_of(&best), "{asked:?}");
    }
}
