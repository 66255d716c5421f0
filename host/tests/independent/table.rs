//! Tables of words: the layout, a fresh one, the check, a lookup.

use super::fact::{class, Fact, RESOURCE};
use super::graph::Graph;
use super::rules::is_consistent;

/// A table has at most so many words.
pub const MOST_WORDS: usize = 2048;

/// Refusal 1: no words, or too many.
pub fn is_bad_size(table: &[u32]) -> bool {
    table.is_empty() || table.len() > MOST_WORDS
}

/// The facts of a table, or refusal 1 or 2.
pub fn facts_of(table: &[u32]) -> Result<Graph, u8> {
    if is_bad_size(table) {
        return Err(1);
    }
    let end = table.iter().position(|word| *word == 0);
    let (words, rest) = table.split_at(end.unwrap_or(table.len()));
    let ascending = words.windows(2).all(|pair| pair[0] < pair[1]);
    let zeros = rest.iter().all(|word| *word == 0);
    let facts: Option<Vec<Fact>> = words.iter().map(|word| Fact::of_word(*word)).collect();
    match facts {
        Some(facts) if ascending && zeros => Ok(Graph::of(facts)),
        _ => Err(2),
    }
}

/// The facts of a consistent table, or refusal 1, 2 or 3.
pub fn consistent_facts_of(table: &[u32]) -> Result<Graph, u8> {
    let graph = facts_of(table)?;
    if is_consistent(&graph) {
        Ok(graph)
    } else {
        Err(3)
    }
}

/// Lays a graph out in a table that has room for it.
pub fn store(graph: &Graph, table: &mut [u32]) {
    table.fill(0);
    for (place, fact) in table.iter_mut().zip(graph.facts()) {
        *place = fact.word();
    }
}

/// The graph of a fresh table.
pub fn fresh_graph() -> Graph {
    Graph::of([class(RESOURCE)])
}

/// Makes a table fresh.
pub fn fresh(table: &mut [u32]) -> u8 {
    if is_bad_size(table) {
        return 1;
    }
    store(&fresh_graph(), table);
    0
}

/// A fresh table of so many words.
pub fn fresh_table(words: usize) -> Vec<u32> {
    let mut table = vec![0; words];
    assert_eq!(fresh(&mut table), 0);
    table
}

pub fn check(table: &[u32]) -> u8 {
    consistent_facts_of(table).err().unwrap_or(0)
}

/// The answer, and whether the word is among the table's facts.
pub fn lookup(table: &[u32], word: u32) -> (u8, bool) {
    match facts_of(table) {
        Ok(graph) => (0, Fact::of_word(word).map_or(false, |fact| graph.has(fact))),
        Err(refusal) => (refusal, false),
    }
}
