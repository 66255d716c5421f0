//! Texts of triples: of consistent graphs, with their lines in any order and repeated, of too many facts, and
//! with bytes changed.

use super::graphs::{broken, grown, overfull};
use super::inside::INSIDE;
use super::outside::OUTSIDE;
use super::tickets::{Ids, MANY};
use super::Random;
use crate::independent::fact::*;
use crate::independent::graph::Graph;
use crate::independent::insertion::smallest;
use crate::independent::table::fresh_graph;
use crate::independent::triples::{lines_of, text_of, without_lone_literals};

/// The lines of a graph in any order, some of them repeated.
pub fn shuffled_lines(random: &mut Random, graph: &Graph) -> Vec<String> {
    let mut lines = lines_of(graph);
    for _ in 0..random.below(1 + lines.len()) {
        let again = random.below(lines.len());
        lines.push(lines[again].clone());
    }
    random.shuffle(&mut lines);
    lines
}

/// Every line twice, the last first.
pub fn backwards_twice(graph: &Graph) -> String {
    lines_of(graph).iter().rev().map(|line| line.repeat(2)).collect()
}

/// A text of any sort: of a consistent graph or of one that breaks rules, in order or not, whole or changed.
pub fn some_text(random: &mut Random, ids: &Ids) -> Vec<u8> {
    let tickets = random.below(45);
    let graph = if random.is_one_in(6) { broken(random, ids) } else { grown(random, ids, tickets, 300) };
    let mut lines = if random.is_one_in(3) { lines_of(&graph) } else { shuffled_lines(random, &graph) };
    match random.below(8) {
        0..=2 => random.pick(OUTSIDE).1(random, &mut lines),
        3..=5 => random.pick(INSIDE).1(random, &mut lines),
        _ => {}
    }
    let text = lines.concat().into_bytes();
    if random.is_one_in(6) {
        damaged_bytes(random, &text)
    } else {
        text
    }
}

/// A text with one to three bytes changed, put in or taken out, or cut off.
pub fn damaged_bytes(random: &mut Random, text: &[u8]) -> Vec<u8> {
    let mut bytes = text.to_vec();
    for _ in 0..1 + random.below(3) {
        damage(random, &mut bytes);
    }
    bytes
}

fn damage(random: &mut Random, bytes: &mut Vec<u8>) {
    if bytes.is_empty() {
        return bytes.push(random.byte());
    }
    let (place, other) = (random.below(bytes.len()), random.below(bytes.len()));
    let byte = random.pick(b" .\n\r\t\"<>#:0123456789");
    match random.below(9) {
        0 => bytes[place] ^= 1 << random.below(8),
        1 => bytes[place] = random.byte(),
        2 => bytes[place] = byte,
        3 => bytes.insert(place, byte),
        4 => bytes.insert(place, bytes[place]),
        5 => bytes.truncate(place),
        6 => bytes.swap(place, other),
        7 => bytes.rotate_left(place),
        _ => drop(bytes.remove(place)),
    }
}

/// A consistent graph of exactly so many facts, at least 200, without lone literals: a small one, and values
/// of individuals and literals that only this function draws.
pub fn full(random: &mut Random, count: usize) -> Graph {
    let (individuals, properties, literals) = (80..=96, 100..=106, 201..=220);
    let ends = |p: u8| [property(p), domain(p, RESOURCE), range(p, RESOURCE)];
    let mut known = vec![property(107), domain(107, RESOURCE), range(107, MARK)];
    known.extend(individuals.clone().map(individual).chain(properties.clone().flat_map(ends)));
    known.extend(literals.flat_map(|n| [literal(n), value(80, n, 107)]));
    known.push(exclusive(107));
    let start = without_lone_literals(&grown(random, &MANY, 40, count / 4));
    let mut graph = smallest(&start, &known).expect("the ids are free");
    let pairs = individuals.clone().flat_map(|x| individuals.clone().map(move |y| (x, y)));
    let mut values: Vec<Fact> =
        pairs.flat_map(|(x, y)| properties.clone().map(move |p| value(x, y, p))).collect();
    random.shuffle(&mut values);
    let missing = count - graph.len();
    graph.put(values.into_iter().take(missing));
    assert_eq!(graph.len(), count);
    graph
}

/// The most bytes that the text of a consistent graph of 2,048 facts has.
pub const LONGEST_CONSISTENT_TEXT: usize = 189_256;

/// A graph with a text of that length: every id but Resource's a property between Resource and Resource, and
/// links between those of three digits. The line of Excl is as long as that of such a link.
pub fn longest_text() -> Graph {
    let ends = |p: u8| [property(p), domain(p, RESOURCE), range(p, RESOURCE)];
    let links = (100..=245).flat_map(|low| (246..=255).map(move |high| subproperty(low, high)));
    let facts = fresh_graph().facts().collect::<Vec<Fact>>().into_iter();
    Graph::of(facts.chain((2..=255).flat_map(ends)).chain(links.take(1_285)))
}

/// Texts of about as many facts as a table has words, and of more, with the answers of reading them: 15 comes
/// before 11, and 11 before 3.
pub fn crowded_texts(random: &mut Random) -> Vec<(String, u8)> {
    let mut texts = vec![(text_of(&overfull()), 11)];
    for (count, answer) in [(2_047, 0), (2_048, 0), (2_049, 11)] {
        let graph = full(random, count);
        texts.push((text_of(&graph), answer));
        texts.push((shuffled_lines(random, &graph).concat(), answer));
        texts.push((text_of(&graph.without(class(0))), 3));
    }
    let bad_line =
        |text: &str| [format!("{text}\n"), format!("\n{text}"), text[..text.len() - 1].to_string()];
    let bad: Vec<String> = texts.iter().flat_map(|(text, _)| bad_line(text)).collect();
    texts.extend(bad.into_iter().map(|text| (text, 15)));
    texts
}
