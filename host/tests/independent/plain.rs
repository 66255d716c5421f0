//! The rules once more, each read off documents 01 and 02 as a statement about all ids of the graph. Very
//! slow; it tests `rules`.

use super::fact::*;
use super::graph::Graph;

/// A rule: how many of the ids x, y, z, w it speaks of, and whether the graph meets it for these.
type Rule = (usize, fn(&Graph, [u8; 4]) -> bool);

/// In document 01's order, then the two of document 02's Ask 3.
const RULES: [Rule; 30] = [
    // 4, 5, 6
    (1, |g, [x, ..]| !(g.has(class(x)) && g.has(property(x)))),
    (1, |g, [x, ..]| !(g.has(class(x)) && g.has(individual(x)))),
    (1, |g, [x, ..]| !(g.has(property(x)) && g.has(individual(x)))),
    // 7, 8, 9, 10
    (2, |g, [x, y, ..]| !g.has(subclass(x, y)) || (g.has(class(x)) && g.has(class(y)))),
    (2, |g, [x, y, ..]| !g.has(subproperty(x, y)) || (g.has(property(x)) && g.has(property(y)))),
    (2, |g, [x, y, ..]| !g.has(domain(x, y)) || (g.has(property(x)) && g.has(class(y)))),
    (2, |g, [x, y, ..]| !g.has(range(x, y)) || (g.has(property(x)) && (g.has(class(y)) || y == MARK))),
    // 11, 12
    (2, |g, [x, y, ..]| !g.has(member(x, y)) || (g.has(individual(x)) && g.has(class(y)))),
    (3, |g, [x, y, z, _]| !g.has(value(x, y, z)) || value_has_ends(g, x, y, z)),
    // 13, 14, 15
    (1, |g, [x, ..]| !g.has(class(x)) || x == RESOURCE || g.has(subclass(x, RESOURCE))),
    (1, |g, [x, ..]| !g.has(individual(x)) || g.has(member(x, RESOURCE))),
    (1, |g, [x, ..]| !g.has(property(x)) || (has_some(g, DOMAIN, x) && has_some(g, RANGE, x))),
    // 16, 17
    (3, |g, [x, y, z, _]| !(g.has(domain(x, y)) && g.has(domain(x, z))) || y == z),
    (3, |g, [x, y, z, _]| !(g.has(range(x, y)) && g.has(range(x, z))) || y == z),
    // 18, 19
    (3, |g, [x, y, z, _]| !(g.has(subclass(x, y)) && g.has(subclass(y, z))) || g.has(subclass(x, z))),
    (2, |g, [x, y, ..]| !(g.has(subclass(x, y)) && (x == y || g.has(subclass(y, x))))),
    // 20, 21
    (3, |g, [x, y, z, _]| {
        !(g.has(subproperty(x, y)) && g.has(subproperty(y, z))) || g.has(subproperty(x, z))
    }),
    (2, |g, [x, y, ..]| !(g.has(subproperty(x, y)) && (x == y || g.has(subproperty(y, x))))),
    // 22, 23
    (4, |g, [x, y, z, w]| !links_domains(g, x, y, z, w) || z == w || g.has(subclass(z, w))),
    (4, |g, [x, y, z, w]| {
        !links_ranges(g, x, y, z, w) || z == MARK || w == MARK || z == w || g.has(subclass(z, w))
    }),
    // 24, 25
    (4, |g, [x, y, z, w]| !(g.has(domain(z, w)) && g.has(value(x, y, z))) || g.has(member(x, w))),
    (4, |g, [x, y, z, w]| !(g.has(range(z, w)) && w != MARK && g.has(value(x, y, z))) || g.has(member(y, w))),
    // 26, 27
    (3, |g, [x, y, z, _]| !(g.has(subclass(y, z)) && g.has(member(x, y))) || g.has(member(x, z))),
    (4, |g, [x, y, z, w]| !(g.has(subproperty(z, w)) && g.has(value(x, y, z))) || g.has(value(x, y, w))),
    // H1, H2, H3, H4
    (0, |g, _| g.has(class(RESOURCE))),
    (1, |g, [x, ..]| !g.has(literal(x)) || !(g.has(class(x)) || g.has(property(x)) || g.has(individual(x)))),
    (3, |g, [x, y, z, _]| !(g.has(range(z, MARK)) && g.has(value(x, y, z))) || g.has(literal(y))),
    (4, |g, [x, y, z, w]| !links_ranges(g, x, y, z, w) || (z == MARK) == (w == MARK)),
    // E1, E2
    (1, |g, [x, ..]| !g.has(exclusive(x)) || g.has(property(x))),
    (4, |g, [x, y, z, w]| !(g.has(exclusive(z)) && g.has(value(x, y, z)) && g.has(value(w, y, z))) || x == w),
];

fn value_has_ends(g: &Graph, x: u8, y: u8, z: u8) -> bool {
    g.has(individual(x)) && g.has(property(z)) && (g.has(individual(y)) || g.has(literal(y)))
}

fn has_some(g: &Graph, kind: u8, x: u8) -> bool {
    g.of_first(kind, x).next().is_some()
}

fn links_domains(g: &Graph, x: u8, y: u8, z: u8, w: u8) -> bool {
    g.has(subproperty(x, y)) && g.has(domain(x, z)) && g.has(domain(y, w))
}

fn links_ranges(g: &Graph, x: u8, y: u8, z: u8, w: u8) -> bool {
    g.has(subproperty(x, y)) && g.has(range(x, z)) && g.has(range(y, w))
}

/// All ids that occur in the graph, and the two that document 01 names.
fn ids_in(graph: &Graph) -> Vec<u8> {
    let mut ids: Vec<u8> = graph.facts().flat_map(|fact| fact.ids()).collect();
    ids.extend([RESOURCE, MARK]);
    ids.sort_unstable();
    ids.dedup();
    ids
}

/// The graph meets the rule for all choices of ids from a place on.
fn is_met(rule: &Rule, graph: &Graph, ids: &[u8], chosen: [u8; 4], place: usize) -> bool {
    let (count, holds) = rule;
    if place == *count {
        return holds(graph, chosen);
    }
    ids.iter().all(|id| {
        let mut more = chosen;
        more[place] = *id;
        is_met(rule, graph, ids, more, place + 1)
    })
}

/// Whether the graph meets each rule, in order, whatever it makes of those before it.
pub fn met(graph: &Graph) -> [bool; 30] {
    let ids = ids_in(graph);
    RULES.map(|rule| is_met(&rule, graph, &ids, [0; 4], 0))
}

/// The place of the first rule that the graph breaks, counted from 1, if it breaks one.
pub fn first_broken(graph: &Graph) -> Option<usize> {
    met(graph).iter().position(|is_met| !is_met).map(|place| place + 1)
}

/// The graph meets every rule.
pub fn is_consistent(graph: &Graph) -> bool {
    first_broken(graph).is_none()
}
