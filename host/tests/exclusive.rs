//! Exclusive properties on the independent implementation: what each clash comes from, what comes and goes
//! with Excl.

mod generator;
mod independent;

use generator::tickets::{holders, ALL_IDS};
use generator::{rounds, Random};
use independent::fact::*;
use independent::graph::Graph;
use independent::insertion::smallest;
use independent::table::{facts_of, fresh_table, MOST_WORDS};
use independent::ticket::{apply, asked_by, Asked};

fn without_exclusive(graph: &Graph) -> Graph {
    Graph::of(graph.facts().filter(|fact| fact.kind != EXCLUSIVE))
}

/// The asked fact of an insertion.
fn asked_fact(ticket: &[u8]) -> Option<Fact> {
    match asked_by(ticket) {
        Ok(Asked::Insert(facts)) => facts.first().copied(),
        _ => None,
    }
}

/// Some other individual than x has y for z.
fn has_other_holder(graph: &Graph, x: u8, y: u8, z: u8) -> bool {
    graph.of_kind(VALUE).any(|held| held.b == y && held.c == z && held.a != x)
}

/// Two individuals share a value of z.
fn is_shared(graph: &Graph, z: u8) -> bool {
    let values: Vec<Fact> = graph.of_kind(VALUE).filter(|held| held.c == z).collect();
    values.iter().any(|held| has_other_holder(graph, held.a, held.b, z))
}

/// What is behind a refusal 10 that exclusive properties alone cause: a value of one of them, or of a property
/// below it; Excl of a property with a shared value; a link from a property with a shared value, or from one
/// whose value another individual has further up; a literal, or an individual, shared.
fn causes(graph: &Graph, asked: Fact) -> [bool; 7] {
    let Fact { kind, a, b, c } = asked;
    let is_value = kind == VALUE;
    let at_once = is_value && graph.has(exclusive(c)) && has_other_holder(graph, a, b, c);
    let linked = kind == SUBPROPERTY;
    let shared = linked && is_shared(graph, a);
    [
        at_once,
        is_value && !at_once,
        kind == EXCLUSIVE && is_shared(graph, a),
        shared,
        linked && !shared,
        is_value && graph.has(literal(b)),
        is_value && graph.has(individual(b)),
    ]
}

/// A clash that is gone without the facts of kind 11 is one of the causes above, and each of them occurs.
#[test]
fn every_cause_of_an_exclusive_clash_occurs() {
    let mut random = Random::for_test("every_cause_of_an_exclusive_clash");
    let mut seen = [0; 7];
    for round in 0..rounds(400) {
        let mut table = fresh_table(MOST_WORDS);
        for ticket in holders(&mut random, &ALL_IDS[1 + round % 3], 40).chunks(5) {
            let graph = facts_of(&table).unwrap();
            if apply(&mut table, ticket).number != 10 {
                continue;
            }
            let asked = asked_fact(ticket).expect("only insertions clash");
            let is_exclusive_clash = match asked.kind {
                EXCLUSIVE => true,
                _ => smallest(&without_exclusive(&graph), &[asked]).is_some(),
            };
            if is_exclusive_clash && asked.kind != PROPERTY {
                let causes = causes(&graph, asked);
                assert!(causes[..5].iter().any(|cause| *cause), "{asked:?} on {graph:?}");
                seen.iter_mut().zip(causes).for_each(|(count, cause)| *count += usize::from(cause));
            }
        }
    }
    assert!(seen.iter().all(|count| *count > 20), "{seen:?}");
}

/// Excl comes alone, or not at all where a value has two holders, and goes alone.
#[test]
fn exclusive_comes_and_goes_alone() {
    let mut random = Random::for_test("exclusive_comes_and_goes_alone");
    let mut met = [0; 11];
    for round in 0..rounds(300) {
        let mut table = fresh_table(MOST_WORDS);
        for ticket in holders(&mut random, &ALL_IDS[round % 4], 25).chunks(5) {
            apply(&mut table, ticket);
        }
        let graph = facts_of(&table).unwrap();
        for known in graph.of_kind(PROPERTY) {
            let (words, is_new) = (table.clone(), !graph.has(exclusive(known.a)));
            let answer = apply(&mut table, &[1, EXCLUSIVE, known.a, 0, 0]);
            met[usize::from(answer.number)] += 1;
            assert_eq!(answer.number == 10, is_new && is_shared(&graph, known.a));
            if answer.number == 10 {
                assert_eq!(table, words);
                continue;
            }
            assert_eq!((answer.number, answer.added, answer.removed), (0, usize::from(is_new), 0));
            let removed = apply(&mut table, &[2, EXCLUSIVE, known.a, 0, 0]);
            assert_eq!((removed.number, removed.added, removed.removed), (0, 0, 1));
            assert_eq!(facts_of(&table), Ok(graph.without(exclusive(known.a))));
            table = words;
        }
    }
    assert!(met[0] > 100 && met[10] > 50, "{met:?}");
}

/// Excl goes where it is asked to, or with its property.
#[test]
fn exclusive_goes_with_its_property_only() {
    let mut random = Random::for_test("exclusive_goes_with_its_property");
    let mut gone = 0;
    for round in 0..rounds(300) {
        let mut table = fresh_table(MOST_WORDS);
        for ticket in holders(&mut random, &ALL_IDS[round % 4], 40).chunks(5) {
            let before = facts_of(&table).unwrap();
            apply(&mut table, ticket);
            let after = facts_of(&table).unwrap();
            for lost in before.of_kind(EXCLUSIVE).filter(|lost| !after.has(*lost)) {
                let is_asked = ticket[..3] == [2, EXCLUSIVE, lost.a];
                assert!(is_asked || !after.has(property(lost.a)), "{ticket:02x?} on {before:?}");
                gone += usize::from(!is_asked);
            }
        }
    }
    assert!(gone > 30, "{gone}");
}
