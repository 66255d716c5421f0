//! What a graph says of an id, and how it differs from another, beside plain passes over its facts.

mod generator;
mod independent;

use generator::graphs::{grown, image};
use generator::tickets::ALL_IDS;
use generator::{rounds, Random};
use std::collections::BTreeSet;
use vimelosa_host::{Fact, Graph, Kind, Range, MOST_FACTS};

/// Graphs of each range of ids, small and large.
fn graphs(random: &mut Random) -> Vec<Graph> {
    let mut graphs = vec![Graph::fresh()];
    for round in 0..rounds(24) {
        let grown = grown(random, &ALL_IDS[round % 4], 10 + 5 * round, MOST_FACTS);
        graphs.push(Graph::load(&image(&grown)).unwrap());
    }
    graphs
}

/// What a pass over all facts picks, ascending and each once.
fn picked<T: Ord>(graph: &Graph, pick: impl Fn(Fact) -> Option<T>) -> Vec<T> {
    let picked: BTreeSet<T> = graph.all_facts().filter_map(pick).collect();
    picked.into_iter().collect()
}

fn links_of(graph: &Graph) -> Vec<(u8, u8)> {
    picked(graph, |fact| match fact {
        Fact::Subclass { class, superclass } => Some((class, superclass)),
        _ => None,
    })
}

fn values_in(graph: &Graph) -> Vec<(u8, u8, u8)> {
    picked(graph, |fact| match fact {
        Fact::Value { individual, value, property } => Some((individual, value, property)),
        _ => None,
    })
}

#[test]
fn classes_above_and_below() {
    for graph in graphs(&mut Random::for_test("classes_above_and_below")) {
        let links = links_of(&graph);
        for id in 0..=255 {
            let above: Vec<u8> = links.iter().filter(|link| link.0 == id).map(|link| link.1).collect();
            let below: Vec<u8> = links.iter().filter(|link| link.1 == id).map(|link| link.0).collect();
            assert!(graph.superclasses_of(id).eq(above.iter().copied()));
            assert!(graph.subclasses_of(id).eq(below.iter().copied()));
            let is_direct = |y: &u8| !links.iter().any(|(x, z)| above.contains(x) && z == y);
            let direct: Vec<u8> = above.iter().copied().filter(is_direct).collect();
            assert_eq!(graph.direct_superclasses(id), direct);
        }
    }
}

#[test]
fn members_and_values() {
    for graph in graphs(&mut Random::for_test("members_and_values")) {
        let values = values_in(&graph);
        for x in 0..=255 {
            let members = picked(&graph, |fact| match fact {
                Fact::Member { individual, class } if class == x => Some(individual),
                _ => None,
            });
            assert!(graph.members_of(x).eq(members));
            for p in graph.body(Kind::Property).iter().copied().chain([x]) {
                let held = values.iter().filter(|(a, _, c)| (*a, *c) == (x, p)).map(|(_, b, _)| *b);
                assert!(graph.values_of(x, p).eq(held));
                let holders = values.iter().filter(|(_, b, c)| (*b, *c) == (x, p)).map(|(a, _, _)| *a);
                assert!(graph.holders_of(x, p).eq(holders));
            }
        }
    }
}

#[test]
fn domains_and_ranges() {
    for graph in graphs(&mut Random::for_test("domains_and_ranges")) {
        for p in 0..=255 {
            let domains: Vec<u8> = picked(&graph, |fact| match fact {
                Fact::Domain { property, class } if property == p => Some(class),
                _ => None,
            });
            let ranges: Vec<Range> = picked(&graph, |fact| match fact {
                Fact::Range { property, range } if property == p => Some(range),
                _ => None,
            });
            assert_eq!(graph.domain_of(p), domains.first().copied());
            assert_eq!(graph.range_of(p), ranges.first().copied());
            assert_eq!(graph.domain_of(p).is_some(), graph.has(Fact::Property(p)));
        }
    }
}

#[test]
fn exclusive_properties() {
    let mut met = 0;
    for graph in graphs(&mut Random::for_test("exclusive_properties")) {
        let exclusive = picked(&graph, |fact| match fact {
            Fact::Exclusive(property) => Some(property),
            _ => None,
        });
        assert!(graph.exclusive_properties().eq(exclusive.iter().copied()));
        assert!((0..=255).all(|id| graph.is_exclusive(id) == exclusive.contains(&id)));
        met += exclusive.len();
    }
    assert!(met > 10, "{met}");
}

#[test]
fn facts_are_found_and_others_are_not() {
    let mut random = Random::for_test("facts_are_found");
    for graph in graphs(&mut random) {
        let facts: BTreeSet<Fact> = graph.all_facts().collect();
        assert!(facts.iter().all(|fact| graph.has(*fact)));
        let near =
            |fact: &Fact| [fact.word() - 1, fact.word() + 1, fact.word() ^ 0x100, fact.word() ^ 0x1_0000];
        let mut others: Vec<u32> = facts.iter().flat_map(near).collect();
        others.extend((0..500).map(|_| u32::from_be_bytes([1, 0, 0, 0].map(|_: u8| random.byte() % 12))));
        for fact in others.into_iter().filter_map(|word| Fact::try_from(word).ok()) {
            assert_eq!(graph.has(fact), facts.contains(&fact), "{fact}");
        }
    }
}

#[test]
fn facts_ascend_and_are_counted_from_both_ends() {
    let mut random = Random::for_test("facts_ascend");
    for graph in graphs(&mut random) {
        let facts: Vec<Fact> = graph.all_facts().collect();
        assert!(facts.windows(2).all(|two| two[0] < two[1] && two[0].word() < two[1].word()));
        let by_kind = Kind::ALL.into_iter().flat_map(|kind| graph.facts(kind));
        assert!(by_kind.eq(facts.iter().copied()));
        let backwards = Kind::ALL.into_iter().rev().flat_map(|kind| graph.facts(kind).rev());
        assert!(backwards.eq(graph.all_facts().rev()));

        let (mut left, mut front, mut back) = (graph.all_facts(), Vec::new(), Vec::new());
        while left.len() > 0 {
            assert_eq!(left.len() + front.len() + back.len(), graph.count_facts());
            match random.is_one_in(2) {
                true => front.extend(left.next()),
                false => back.extend(left.next_back()),
            }
        }
        assert_eq!((left.next(), left.next_back()), (None, None));
        front.extend(back.into_iter().rev());
        assert_eq!(front, facts);
    }
}

#[test]
fn differences_are_those_of_the_sets_of_facts() {
    let graphs = graphs(&mut Random::for_test("differences"));
    for one in &graphs {
        for other in graphs.iter().step_by(3) {
            let (here, there): (BTreeSet<Fact>, BTreeSet<Fact>) =
                (one.all_facts().collect(), other.all_facts().collect());
            let diff = one.diff(other);
            assert!(here.difference(&there).eq(&diff.only_here));
            assert!(there.difference(&here).eq(&diff.only_there));
            assert_eq!(diff.is_empty(), one == other);
        }
    }
}

/// In words and bodies the mark, 1, stands after rdfs:Resource, 0.
#[test]
fn a_range_of_resource_and_one_of_literals_differ() {
    let graph_of = |text: &str| {
        let mut graph = Graph::fresh();
        graph.apply(text.parse().unwrap()).unwrap();
        graph
    };
    let (of_resource, of_literals) =
        (graph_of("insert property 5 0 0"), graph_of("insert property 5 0 Literal"));
    let diff = of_resource.diff(&of_literals);
    let range = |range: Range| Fact::Range { property: 5, range };
    assert_eq!(diff.only_here, [range(Range::class(0).unwrap())]);
    assert_eq!(diff.only_there, [range(Range::Literal)]);
    assert!(diff.only_here < diff.only_there);
}
