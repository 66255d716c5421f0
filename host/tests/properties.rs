//! Properties of the independent implementation on random lists of tickets.

mod generator;
mod independent;

use generator::tickets::{list, ticket, ALL_IDS, FEW, MANY, SHARED};
use generator::{graphs, rounds, Random};
use independent::fact::*;
use independent::graph::Graph;
use independent::insertion::smallest;
use independent::list::{apply_list, ListAnswer};
use independent::table::{check, facts_of, fresh_table, MOST_WORDS};
use independent::ticket::{apply, asked_by, changed, Answer, Asked};
use independent::{brute, plain, rules};

/// One accepted ticket: the words are a consistent table, nothing goes by an insertion, nothing comes by a
/// deletion.
fn assert_step(old: &[u32], ticket: &[u8], new: &[u32], answer: Answer) {
    let (before, after) = (facts_of(old).unwrap(), facts_of(new).unwrap());
    assert_eq!(check(new), 0);
    assert_eq!(after.len() + answer.removed, before.len() + answer.added);
    match asked_by(ticket).expect("an accepted ticket is well formed") {
        Asked::Insert(facts) => {
            assert!(before.is_part_of(&after) && facts.iter().all(|fact| after.has(*fact)));
            assert_eq!(answer.removed, 0);
        }
        Asked::Delete(fact) => {
            assert!(after.is_part_of(&before) && !after.has(fact));
            assert_eq!(answer.added, 0);
        }
    }
}

#[test]
fn each_ticket_leaves_a_consistent_table() {
    let mut random = Random::for_test("each_ticket_leaves_a_consistent_table");
    for round in 0..rounds(240) {
        let words = random.pick(&[1, 2, 5, 12, 30, 90, MOST_WORDS]);
        let mut table = fresh_table(words);
        for ticket in list(&mut random, &ALL_IDS[round % 4], 60).chunks(5) {
            let old = table.clone();
            let answer = apply(&mut table, ticket);
            if answer.number == 0 {
                assert_step(&old, ticket, &table, answer);
            } else {
                assert_eq!((&table, answer), (&old, Answer::refused(answer.number)));
            }
        }
    }
}

#[test]
fn a_repeated_ticket_changes_nothing() {
    let mut random = Random::for_test("a_repeated_ticket_changes_nothing");
    for round in 0..rounds(60) {
        let mut table = fresh_table(200);
        for ticket in list(&mut random, &ALL_IDS[round % 4], 40).chunks(5) {
            let first = apply(&mut table, ticket);
            let words = table.clone();
            let again = Answer::refused(first.number);
            assert_eq!(apply(&mut table, ticket), again);
            assert_eq!(table, words);
        }
    }
}

#[test]
fn every_refusal_and_acceptance_occurs() {
    let mut random = Random::for_test("every_refusal_and_acceptance_occurs");
    let mut seen = [0; 17];
    for round in 0..240 {
        let mut table = fresh_table(random.pick(&[12, 40, 200]));
        for ticket in list(&mut random, &ALL_IDS[round % 4], 60).chunks(5) {
            seen[usize::from(apply(&mut table, ticket).number)] += 1;
        }
    }
    assert!([0, 4, 5, 6, 7, 8, 9, 10, 11, 16].iter().all(|number| seen[*number] > 20), "{seen:?}");
}

/// What is behind a refusal 16: the id is nothing at all, a property, an individual or a literal; the member
/// is that id, Resource, or no individual; the table is full.
fn causes(graph: &Graph, ticket: &[u8], words: usize) -> [bool; 8] {
    let (a, b) = (ticket[2], ticket[3]);
    let [p, x, n] = [property, individual, literal].map(|sort| graph.has(sort(b)));
    let clashes = [class, property, literal].iter().any(|sort| graph.has(sort(a)));
    [!(p || x || n), p, x, n, a == b, a == RESOURCE, clashes, graph.len() == words]
}

#[test]
fn every_cause_of_refusal_16_occurs() {
    let mut random = Random::for_test("every_cause_of_refusal_16_occurs");
    let mut seen = [0; 8];
    for round in 0..480 {
        let mut table = fresh_table(random.pick(&[1, 12, 40, 200]));
        for ticket in list(&mut random, &ALL_IDS[round % 4], 60).chunks(5) {
            if apply(&mut table, ticket).number == 16 {
                let causes = causes(&facts_of(&table).unwrap(), ticket, table.len());
                seen.iter_mut().zip(causes).for_each(|(count, cause)| *count += usize::from(cause));
            }
        }
    }
    assert!(seen.iter().all(|count| *count > 5), "{seen:?}");
}

#[test]
fn the_list_call_is_the_single_calls() {
    let mut random = Random::for_test("the_list_call_is_the_single_calls");
    for round in 0..rounds(60) {
        let list = list(&mut random, &ALL_IDS[round % 4], 40);
        let (mut single, mut whole) = (fresh_table(100), fresh_table(100));
        let single_answers = list.chunks(5).map(|ticket| apply(&mut single, ticket).number);
        let mut numbers: Vec<u8> = single_answers.collect();
        let accepted = numbers.iter().filter(|number| **number == 0).count();
        let refused = numbers.len() - accepted;
        numbers.extend([77; 3]);
        let mut answers = vec![77; numbers.len()];
        let answer = apply_list(&mut whole, &list, &mut answers);
        assert_eq!(answer, ListAnswer { number: 0, accepted, refused });
        assert_eq!((single, numbers), (whole, answers));
    }
}

#[test]
fn the_rules_agree_with_their_plain_form() {
    let mut random = Random::for_test("the_rules_agree_with_their_plain_form");
    let mut consistent = 0;
    let count = rounds(600);
    for round in 0..count {
        let graph = graphs::disturbed(&mut random, &[SHARED, FEW][round % 2], 50);
        let found = rules::is_consistent(&graph);
        assert_eq!(found, plain::is_consistent(&graph), "{graph:?}");
        consistent += usize::from(found);
    }
    assert!(consistent > count / 5 && consistent < count * 4 / 5, "{consistent} of {count}");
}

/// Graphs each one fact away from a consistent one that has facts of every kind.
fn one_fact_off() -> Vec<Graph> {
    let more = [property(110), domain(110, 2), range(110, MARK), value(200, 220, 110), exclusive(110)];
    let whole = smallest(&graphs::chain(3), &more).unwrap();
    let clashing = [
        property(2),
        individual(2),
        individual(100),
        literal(2),
        domain(100, 4),
        range(100, 4),
        subclass(4, 2),
        subproperty(102, 100),
        subproperty(110, 100),
        value(201, 220, 110),
    ];
    let fewer = whole.facts().map(|fact| whole.without(fact));
    let further = clashing.iter().map(|fact| Graph::of(whole.facts().chain([*fact])));
    fewer.chain(further).collect()
}

#[test]
fn every_rule_is_broken_by_some_graph() {
    let mut broken = [0; 107];
    for graph in one_fact_off() {
        assert_eq!(rules::is_consistent(&graph), plain::is_consistent(&graph), "{graph:?}");
        rules::each_demand(&graph, &mut |demand| {
            broken[usize::from(demand.rule)] += usize::from(!demand.is_met(&graph));
        });
    }
    for rule in (4..=27).chain(101..=106) {
        assert!(broken[rule] > 0, "rule {rule} was never broken");
    }
}

#[test]
fn an_insertion_is_minimal() {
    let mut random = Random::for_test("an_insertion_is_minimal");
    let mut tried = 0;
    while tried < rounds(400) {
        let graph = graphs::grown(&mut random, &FEW, 20, 40);
        let facts = match asked_by(&ticket(&mut random, &FEW)) {
            Ok(Asked::Insert(facts)) => facts,
            _ => continue,
        };
        let new = match changed(&graph, &Asked::Insert(facts.clone())) {
            Ok(new) => new,
            Err(_) => continue,
        };
        let added = new.count_beyond(&graph);
        if added > 0 && added <= 14 && new.len() <= 64 {
            assert!(brute::is_minimal(&graph, &facts, &new), "{graph:?} {facts:?}");
            tried += 1;
        }
    }
}

/// The asked facts of an insertion that would bring this fact, if the larger graph has one.
fn asked_for(fact: Fact, larger: &Graph) -> Vec<Fact> {
    let ends = [DOMAIN, RANGE].map(|kind| larger.of_first(kind, fact.a).next());
    match fact.kind {
        PROPERTY => [Some(fact), ends[0], ends[1]].into_iter().flatten().collect(),
        _ => vec![fact],
    }
}

#[test]
fn an_insertion_is_within_every_consistent_graph_that_holds_it() {
    let mut random = Random::for_test("an_insertion_is_within");
    for _ in 0..rounds(60) {
        let graph = graphs::grown(&mut random, &MANY, 30, 200);
        let mut larger = graph.clone();
        for _ in 0..25 {
            let asked = asked_by(&ticket(&mut random, &MANY));
            if let Ok(Asked::Insert(facts)) = asked {
                larger = changed(&larger, &Asked::Insert(facts)).unwrap_or(larger);
            }
        }
        for fact in larger.facts().filter(|f| f.kind != DOMAIN && f.kind != RANGE) {
            let asked = Asked::Insert(asked_for(fact, &larger));
            match changed(&graph, &asked) {
                Ok(new) => assert!(new.is_part_of(&larger), "{fact:?}"),
                Err(refusal) => assert_eq!(refusal, if fact.kind == MEMBER { 16 } else { 9 }, "{fact:?}"),
            }
        }
    }
}

#[test]
fn smallest_of_a_chain_goes_all_the_way_up() {
    let graph = graphs::chain(12);
    for step in 0..12 {
        assert!(graph.has(value(200, 201, 100 + step)) && graph.has(member(201, 2 + step)));
    }
    let more = smallest(&graph, &[member(202, 2)]).unwrap();
    assert_eq!(more.count_beyond(&graph), 1 + 1 + 12);
}
