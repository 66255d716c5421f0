//! Triples: the text of a table and the table of a text, by Asks 1 and 3 of document 02. A text is cut at
//! newlines and blanks, each term is looked up among all terms there are, and the facts are gathered in a
//! set.

use super::fact::*;
use super::graph::Graph;
use super::rules::is_consistent;
use super::table::{consistent_facts_of, is_bad_size, store};
use std::collections::{BTreeSet, HashMap};
use std::str;

/// What stands at one of a line's three places.
#[derive(Clone, Copy, PartialEq, Eq, Debug)]
pub enum Term {
    Id(u8),
    Literal(u8),
    Mark,
    Type,
    Class,
    Property,
    Exclusive,
    SubclassOf,
    SubpropertyOf,
    Domain,
    Range,
}

impl Term {
    /// Every term that a line can have. Ids are 0 and 2 to 255; those of literals are 2 to 255.
    pub fn all() -> Vec<Term> {
        let names = [
            Term::Mark,
            Term::Type,
            Term::Class,
            Term::Property,
            Term::Exclusive,
            Term::SubclassOf,
            Term::SubpropertyOf,
            Term::Domain,
            Term::Range,
        ];
        let ids = [RESOURCE].into_iter().chain(2..=255).map(Term::Id);
        ids.chain((2..=255).map(Term::Literal)).chain(names).collect()
    }

    pub fn text(self) -> String {
        let syntax = |name: &str| format!("<http://www.w3.org/1999/02/22-rdf-syntax-ns#{name}>");
        let schema = |name: &str| format!("<http://www.w3.org/2000/01/rdf-schema#{name}>");
        match self {
            Term::Id(RESOURCE) => schema("Resource"),
            Term::Id(id) => format!("<urn:id:{id}>"),
            Term::Literal(id) => format!("\"{id}\""),
            Term::Mark => schema("Literal"),
            Term::Type => syntax("type"),
            Term::Class => schema("Class"),
            Term::Property => syntax("Property"),
            Term::Exclusive => "<urn:mark:excl>".to_string(),
            Term::SubclassOf => schema("subClassOf"),
            Term::SubpropertyOf => schema("subPropertyOf"),
            Term::Domain => schema("domain"),
            Term::Range => schema("range"),
        }
    }
}

thread_local! {
    /// Every term by its text.
    static TERMS: HashMap<String, Term> = Term::all().into_iter().map(|term| (term.text(), term)).collect();
}

/// The term of a text, if it is one.
fn term_of(text: &str) -> Option<Term> {
    TERMS.with(|terms| terms.get(text).copied())
}

/// The line of three terms, with its newline.
pub fn line_of(terms: [Term; 3]) -> String {
    let [subject, predicate, object] = terms.map(Term::text);
    format!("{subject} {predicate} {object} .\n")
}

/// The terms of a fact's line, where the value of a PI fact is a literal or not; none for Ind and Lit.
pub fn terms_of(fact: Fact, is_literal: bool) -> Option<[Term; 3]> {
    let [a, b, c] = fact.ids().map(Term::Id);
    Some(match fact.kind {
        CLASS => [a, Term::Type, Term::Class],
        PROPERTY => [a, Term::Type, Term::Property],
        SUBCLASS => [a, Term::SubclassOf, b],
        SUBPROPERTY => [a, Term::SubpropertyOf, b],
        DOMAIN => [a, Term::Domain, b],
        RANGE if fact.b == MARK => [a, Term::Range, Term::Mark],
        RANGE => [a, Term::Range, b],
        MEMBER => [a, Term::Type, b],
        VALUE if is_literal => [a, c, Term::Literal(fact.b)],
        VALUE => [a, c, b],
        EXCLUSIVE => [a, Term::Type, Term::Exclusive],
        _ => return None,
    })
}

/// The lines of a graph, in table order.
pub fn lines_of(graph: &Graph) -> Vec<String> {
    let terms = |fact: Fact| terms_of(fact, graph.has(literal(fact.b)));
    graph.facts().filter_map(terms).map(line_of).collect()
}

pub fn text_of(graph: &Graph) -> String {
    lines_of(graph).concat()
}

/// The graph without the literals that are in no PI fact.
pub fn without_lone_literals(graph: &Graph) -> Graph {
    let is_value = |id: u8| graph.of_kind(VALUE).any(|fact| fact.b == id);
    Graph::of(graph.facts().filter(|fact| fact.kind != LITERAL || is_value(fact.a)))
}

/// The fact that a line of these terms gives, if it gives one.
fn fact_of([subject, predicate, object]: [Term; 3]) -> Option<Fact> {
    let a = match subject {
        Term::Id(a) => a,
        _ => return None,
    };
    Some(match (predicate, object) {
        (Term::Type, Term::Class) => class(a),
        (Term::Type, Term::Property) => property(a),
        (Term::Type, Term::Exclusive) => exclusive(a),
        (Term::Type, Term::Id(b)) => member(a, b),
        (Term::SubclassOf, Term::Id(b)) => subclass(a, b),
        (Term::SubpropertyOf, Term::Id(b)) => subproperty(a, b),
        (Term::Domain, Term::Id(b)) => domain(a, b),
        (Term::Range, Term::Id(b)) => range(a, b),
        (Term::Range, Term::Mark) => range(a, MARK),
        (Term::Id(c), Term::Id(b) | Term::Literal(b)) => value(a, b, c),
        _ => return None,
    })
}

/// The facts of a text, with Ind(a) for each CI(a,0) and Lit(n) for each literal n, or none if a line is
/// outside the profile (refusal 15).
pub fn facts_in_text(text: &[u8]) -> Option<Graph> {
    let mut graph = Graph::default();
    let (mut iris, mut literals) = (BTreeSet::new(), BTreeSet::new());
    for line in str::from_utf8(text).ok()?.split_inclusive('\n') {
        let parts = line.strip_suffix(" .\n")?.split(' ');
        let terms = parts.map(term_of).collect::<Option<Vec<Term>>>()?;
        let terms: [Term; 3] = terms.try_into().ok()?;
        let fact = fact_of(terms)?;
        graph.put([fact]);
        match terms[2] {
            Term::Literal(n) => literals.extend([n]),
            _ if fact.kind == VALUE => iris.extend([fact.b]),
            _ if fact == member(fact.a, RESOURCE) => graph.put([individual(fact.a)]),
            _ => {}
        }
    }
    graph.put(literals.iter().copied().map(literal));
    iris.is_disjoint(&literals).then_some(graph)
}

/// Writes a table's text and answers its length. Refusals 1, 2, 3, 13; bytes after the text are untouched.
pub fn write_triples(table: &[u32], output: &mut [u8]) -> (u8, usize) {
    let graph = match consistent_facts_of(table) {
        Ok(graph) => graph,
        Err(refusal) => return (refusal, 0),
    };
    let text = text_of(&graph);
    match output.get_mut(..text.len()) {
        Some(place) => place.copy_from_slice(text.as_bytes()),
        None => return (13, 0),
    }
    (0, text.len())
}

/// Reads a text into a table. Refusals 1, 15, 11, 3; the words after its facts are zeros.
pub fn read_triples(text: &[u8], table: &mut [u32]) -> u8 {
    if is_bad_size(table) {
        return 1;
    }
    let graph = match facts_in_text(text) {
        Some(graph) => graph,
        None => return 15,
    };
    if graph.len() > table.len() {
        return 11;
    }
    if !is_consistent(&graph) {
        return 3;
    }
    store(&graph, table);
    0
}
