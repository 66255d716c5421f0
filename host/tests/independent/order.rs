//! Rearranged lists of insertions: which tickets wait for others.

use super::fact::*;
use super::graph::Graph;

/// The classes and properties that an insertion waits for: PSub, PI and Excl for the properties they use, CI
/// for its class.
fn awaited([_, kind, a, b, c]: [u8; 5]) -> Vec<Fact> {
    match kind {
        SUBPROPERTY => vec![property(a), property(b)],
        VALUE => vec![property(c)],
        EXCLUSIVE => vec![property(a)],
        MEMBER => vec![class(b)],
        _ => Vec::new(),
    }
}

/// The classes and properties that an insertion makes where they do not stand yet. The mark is no class.
fn made([_, kind, a, b, c]: [u8; 5]) -> Vec<Fact> {
    match kind {
        CLASS => vec![class(a)],
        PROPERTY if c == MARK => vec![property(a), class(b)],
        PROPERTY => vec![property(a), class(b), class(c)],
        SUBCLASS => vec![class(a), class(b)],
        _ => Vec::new(),
    }
}

/// All that the insertion waits for stands in the graph at the start, or is made by one before it.
pub fn may_follow(start: &Graph, before: &[[u8; 5]], ticket: [u8; 5]) -> bool {
    let stands = |fact: Fact| start.has(fact) || before.iter().any(|earlier| made(*earlier).contains(&fact));
    awaited(ticket).into_iter().all(stands)
}

/// The place of the first insertion that stands before one it waits for, if there is such a one.
pub fn first_out_of_order(start: &Graph, tickets: &[[u8; 5]]) -> Option<usize> {
    (0..tickets.len()).find(|place| !may_follow(start, &tickets[..*place], tickets[*place]))
}
