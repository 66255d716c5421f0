//! Consistent graphs, small and full.

use super::tickets::{ticket, ticket_with, Ids, MANY, PLENTY};
use super::Random;
use crate::independent::fact::*;
use crate::independent::graph::Graph;
use crate::independent::image::{image_of, image_with, FEWER_ENTRIES};
use crate::independent::insertion::smallest;
use crate::independent::table::fresh_graph;
use crate::independent::ticket::{asked_by, changed};

/// What so many tickets leave of a fresh graph, without one that would pass `most` facts.
pub fn grown(random: &mut Random, ids: &Ids, tickets: usize, most: usize) -> Graph {
    let mut graph = fresh_graph();
    for _ in 0..tickets {
        let asked = asked_by(&ticket_with(random, ids, &classes_of(&graph)));
        match asked.and_then(|asked| changed(&graph, &asked)) {
            Ok(new) if new.len() <= most => graph = new,
            _ => {}
        }
    }
    graph
}

/// A consistent graph of at most so many facts, then up to two taken out or put in, whatever the rules say.
pub fn disturbed(random: &mut Random, ids: &Ids, most: usize) -> Graph {
    let mut graph = grown(random, ids, 35, most);
    for _ in 0..random.below(3) {
        disturb(random, ids, &mut graph);
    }
    graph
}

/// A consistent graph of any number of tickets below 60, then one or two facts taken out or put in, most of
/// them of ids that the graph knows. It breaks a rule more often than not, and each of the rules is the first
/// now and then.
pub fn broken(random: &mut Random, ids: &Ids) -> Graph {
    let tickets = random.below(60);
    let mut graph = grown(random, ids, tickets, 80);
    for _ in 0..1 + random.below(2) {
        match known_fact(random, &graph) {
            Some(fact) if !random.is_one_in(3) => graph.put([fact]),
            _ => disturb(random, ids, &mut graph),
        }
    }
    graph
}

/// A fact between ids of the graph that are of its sorts, or an id of one sort as one of another; none where
/// the graph has none of a sort.
fn known_fact(random: &mut Random, graph: &Graph) -> Option<Fact> {
    let choice = random.below(13);
    let [sort, other_sort] = [(); 2].map(|_| CLASS + random.below(4) as u8);
    let sort = if random.is_one_in(5) { EXCLUSIVE } else { sort };
    let second = second_holder(random, graph);
    let mut one = |kind: u8| {
        let known: Vec<u8> = graph.of_kind(kind).map(|fact| fact.a).collect();
        (!known.is_empty()).then(|| random.pick(&known))
    };
    Some(match choice {
        0 => fact(sort, one(other_sort)?, 0, 0),
        1 => subclass(one(CLASS)?, one(CLASS)?),
        2..=4 => subproperty(one(PROPERTY)?, one(PROPERTY)?),
        5 => domain(one(PROPERTY)?, one(CLASS)?),
        6 => range(one(PROPERTY)?, one(CLASS)?),
        7 => member(one(INDIVIDUAL)?, one(CLASS)?),
        8 => value(one(INDIVIDUAL)?, one(INDIVIDUAL)?, one(PROPERTY)?),
        9 => value(one(INDIVIDUAL)?, one(LITERAL)?, one(PROPERTY)?),
        10 => exclusive(one(PROPERTY)?),
        _ => second?,
    })
}

/// A value that the graph has, with another holder, of an exclusive property where there is one; none where
/// the graph has no value or no other holder for it.
fn second_holder(random: &mut Random, graph: &Graph) -> Option<Fact> {
    let values: Vec<Fact> = graph.of_kind(VALUE).collect();
    let of_marked: Vec<Fact> = values.iter().copied().filter(|held| graph.has(exclusive(held.c))).collect();
    let chosen = if of_marked.is_empty() { values } else { of_marked };
    let held = (!chosen.is_empty()).then(|| random.pick(&chosen))?;
    // One in the first one's classes breaks no rule about members.
    let classes: Vec<Fact> = graph.of_first(MEMBER, held.a).collect();
    let is_alike = |x: &u8| *x != held.a && classes.iter().all(|of| graph.has(member(*x, of.b)));
    let alike: Vec<u8> = graph.of_kind(INDIVIDUAL).map(|known| known.a).filter(is_alike).collect();
    (!alike.is_empty()).then(|| value(random.pick(&alike), held.b, held.c))
}

/// A fact taken out or put in.
fn disturb(random: &mut Random, ids: &Ids, graph: &mut Graph) {
    let facts: Vec<Fact> = graph.facts().collect();
    if random.is_one_in(2) && !facts.is_empty() {
        graph.take([random.pick(&facts)]);
    } else {
        let [_, kind, a, b, c] = ticket(random, ids);
        let kind = random.pick(&[kind, DOMAIN, RANGE]);
        graph.put(Some(fact(kind, a, b, c)).filter(Fact::is_fact));
    }
}

/// A consistent graph with the mark in place of one of its ids: the rules hold as before, but it is not made
/// of facts.
pub fn marked(random: &mut Random, ids: &Ids) -> Graph {
    let graph = grown(random, ids, 35, 50);
    let used: Vec<u8> = graph.facts().map(|fact| fact.a).collect();
    let gone = random.pick(&used);
    let marked = |id: u8| if id == gone && id != RESOURCE { MARK } else { id };
    Graph::of(graph.facts().map(|f| fact(f.kind, marked(f.a), marked(f.b), marked(f.c))))
}

/// A graph of exactly `count` facts, with a tree of classes, properties one under the other, members and
/// values.
pub fn filled(random: &mut Random, count: usize) -> Graph {
    let start = grown(random, &MANY, 120, count / 2);
    // With Resource 17 classes at least: 120 individuals can be in them by 2,160 facts.
    let more_classes: Vec<Fact> = (13..20).chain(28..37).map(class).collect();
    let mut graph = smallest(&start, &more_classes).expect("the ids are free");
    while graph.len() < count {
        let members = some_members(random, &graph, 1 + (count - graph.len()) / 30);
        let new = smallest(&graph, &members).expect("a new individual can be in any class");
        if new.len() <= count {
            graph = new;
        } else {
            graph.put(loose_literal(&graph));
        }
    }
    graph
}

pub fn classes_of(graph: &Graph) -> Vec<u8> {
    graph.of_kind(CLASS).map(|fact| fact.a).collect()
}

/// So many members of the graph's classes, of 120 individuals that only these draw.
fn some_members(random: &mut Random, graph: &Graph, count: usize) -> Vec<Fact> {
    let classes = classes_of(graph);
    let mut draw = || member(80 + random.below(120) as u8, random.pick(&classes));
    (0..count).map(|_| draw()).collect()
}

/// A literal that the graph does not know: it brings nothing else with it.
fn loose_literal(graph: &Graph) -> Option<Fact> {
    let ids = PLENTY.literals.0..=PLENTY.literals.1;
    ids.map(literal).find(|fact| !graph.has(*fact))
}

/// The most bytes that the image of a consistent graph of 2,048 facts has. Values are the longest facts; 17
/// individuals and 7 properties with Resource at both ends have room for 2,023 of them. With any other
/// numbers of individuals, properties and literals either the values find no room or what they need leaves
/// fewer bytes to them.
pub const LONGEST_CONSISTENT: usize = 6_131;

/// The graph, with as many values as make its image that long, and literals for the last one or two bytes.
/// They are of individuals and properties that only this function draws, and the image's length has to leave
/// room for those.
pub fn of_length(random: &mut Random, start: &Graph, length: usize) -> Graph {
    let (individuals, properties) = (80..=96, 100..=106);
    let ends = |p: u8| [property(p), domain(p, RESOURCE), range(p, RESOURCE)];
    let known = individuals.clone().map(individual).chain(properties.clone().flat_map(ends));
    let mut graph = smallest(start, &known.collect::<Vec<Fact>>()).expect("the ids are free");
    let pairs = individuals.clone().flat_map(|x| individuals.clone().map(move |y| (x, y)));
    let mut values: Vec<Fact> =
        pairs.flat_map(|(x, y)| properties.clone().map(move |p| value(x, y, p))).collect();
    random.shuffle(&mut values);
    let missing = length - image(&graph).len();
    graph.put(values.into_iter().take(missing / 3));
    for _ in 0..missing % 3 {
        graph.put(loose_literal(&graph));
    }
    graph
}

/// Properties one under the other, each with a class of its own, and a value at the lowest one.
pub fn chain(length: u8) -> Graph {
    let (classes, properties) = (2, 100);
    let mut asked = Vec::new();
    for step in 0..length {
        let (c, p) = (classes + step, properties + step);
        asked.extend([property(p), domain(p, c), range(p, c)]);
        if step > 0 {
            asked.push(subproperty(p - 1, p));
        }
    }
    asked.push(value(200, 201, properties));
    smallest(&fresh_graph(), &asked).expect("a chain is consistent")
}

/// More facts than any table holds: its image has some 58,000 bytes.
pub fn overlong() -> Graph {
    let ids = |last: u8| 2..=last;
    Graph::of(ids(24).flat_map(|a| ids(30).flat_map(move |b| ids(30).map(move |c| value(a, b, c)))))
}

/// More facts than a table has words, in an image of some 6,300 bytes.
pub fn overfull() -> Graph {
    let facts = overlong().facts().take(2_070).collect::<Vec<Fact>>();
    Graph::of(facts)
}

/// The image of a graph that has one.
pub fn image(graph: &Graph) -> Vec<u8> {
    image_of(graph).expect("the graph has an image")
}

/// The image with ten entries of a graph, without its facts of kind 11: if the graph meets the rules, so does
/// what is read.
pub fn ten_entries(graph: &Graph) -> Vec<u8> {
    image_with(FEWER_ENTRIES, graph).expect("the graph has an image")
}

/// An image of the graph, one in four with ten entries.
pub fn some_image_of(random: &mut Random, graph: &Graph) -> Vec<u8> {
    if random.is_one_in(4) {
        ten_entries(graph)
    } else {
        image(graph)
    }
}
