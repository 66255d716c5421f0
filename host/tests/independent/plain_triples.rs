//! Which texts are read, as the converse says it: those whose lines are the lines of a consistent graph
//! without lone literals, each at least once, in any order. The graph is found by trying the line of every
//! fact over the numbers that a line has. Very slow; it tests `triples`.

use super::fact::*;
use super::graph::Graph;
use super::plain::is_consistent;
use super::triples::{line_of, lines_of, terms_of, without_lone_literals};
use std::collections::BTreeSet;

/// The ids that the digits of a line can stand for, and the two that document 01 names.
fn ids_in(line: &str) -> BTreeSet<u8> {
    let numbers = line.split(|x: char| !x.is_ascii_digit()).filter_map(|digits| digits.parse().ok());
    [RESOURCE, MARK].into_iter().chain(numbers).collect()
}

/// Every fact over these ids, a PI fact once with its value as an IRI and once as a literal.
fn each_fact(ids: &BTreeSet<u8>) -> impl Iterator<Item = (Fact, bool)> + '_ {
    let all = (CLASS..=EXCLUSIVE).flat_map(move |kind| {
        let triples = ids
            .iter()
            .flat_map(move |a| ids.iter().flat_map(move |b| ids.iter().map(move |c| fact(kind, *a, *b, *c))));
        triples.filter(Fact::is_fact)
    });
    all.flat_map(|fact| {
        let may_be_literal = fact.kind == VALUE && fact.b != RESOURCE;
        [Some((fact, false)), may_be_literal.then_some((fact, true))].into_iter().flatten()
    })
}

/// The fact whose line this is, and whether it has a literal.
fn fact_of_line(line: &str) -> Option<(Fact, bool)> {
    let ids = ids_in(line);
    let found = each_fact(&ids)
        .find(|(fact, is_literal)| terms_of(*fact, *is_literal).map(line_of).as_deref() == Some(line));
    found
}

/// The graph that a text is read as into a table of so many words, if it is read.
pub fn graph_read(text: &[u8], words: usize) -> Option<Graph> {
    let lines: BTreeSet<&str> = std::str::from_utf8(text).ok()?.split_inclusive('\n').collect();
    let facts: Vec<(Fact, bool)> = lines.iter().map(|line| fact_of_line(line)).collect::<Option<_>>()?;
    let sorts = facts.iter().filter_map(|(fact, is_literal)| match (fact.kind, fact.b) {
        (MEMBER, RESOURCE) => Some(individual(fact.a)),
        (VALUE, n) if *is_literal => Some(literal(n)),
        _ => None,
    });
    let graph = Graph::of(facts.iter().map(|(fact, _)| *fact).chain(sorts));
    let written: Vec<String> = lines_of(&graph);
    let same_lines = written.iter().map(String::as_str).collect::<BTreeSet<&str>>() == lines;
    let is_one = graph.len() <= words && is_consistent(&graph) && without_lone_literals(&graph) == graph;
    (same_lines && is_one).then_some(graph)
}
