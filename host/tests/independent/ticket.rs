//! One ticket on a table, with its refusals in their order: 1 to 9, 16, 10, 11.

use super::deletion::largest;
use super::fact::*;
use super::graph::Graph;
use super::insertion::smallest;
use super::table::{consistent_facts_of, store};

const INSERT: u8 = 1;
const DELETE: u8 = 2;

#[derive(Clone, Copy, PartialEq, Eq, Debug)]
pub struct Answer {
    pub number: u8,
    pub added: usize,
    pub removed: usize,
}

impl Answer {
    pub fn refused(number: u8) -> Answer {
        let (added, removed) = (0, 0);
        Answer { number, added, removed }
    }
}

/// What a well-formed ticket asks.
#[derive(Clone, PartialEq, Eq, Debug)]
pub enum Asked {
    Insert(Vec<Fact>),
    Delete(Fact),
}

/// A call that runs one ticket on a table.
pub type TicketCall = fn(&mut [u32], &[u8]) -> Answer;

/// How a call understands the bytes of a ticket: what they ask, or a refusal.
pub type Reading = fn(&[u8]) -> Result<Asked, u8>;

/// Runs one ticket. A refused one leaves the table as it was.
pub fn apply(table: &mut [u32], ticket: &[u8]) -> Answer {
    apply_by(asked_by, table, ticket)
}

/// Runs one ticket, its bytes understood by the reading. A refused one leaves the table as it was.
pub fn apply_by(reading: Reading, table: &mut [u32], ticket: &[u8]) -> Answer {
    match old_and_new(reading, table, ticket) {
        Ok((old, new)) => {
            store(&new, table);
            Answer { number: 0, added: new.count_beyond(&old), removed: old.count_beyond(&new) }
        }
        Err(refusal) => Answer::refused(refusal),
    }
}

fn old_and_new(reading: Reading, table: &[u32], ticket: &[u8]) -> Result<(Graph, Graph), u8> {
    let old = consistent_facts_of(table)?; // refusals 1, 2, 3
    let new = changed(&old, &reading(ticket)?)?;
    if new.len() > table.len() {
        return Err(11);
    }
    Ok((old, new))
}

/// What the bytes of a ticket ask, or refusal 4, 5, 6 or 7.
pub fn asked_by(ticket: &[u8]) -> Result<Asked, u8> {
    let [operation, kind, a, b, c] = <[u8; 5]>::try_from(ticket).map_err(|_| 4)?;
    if operation != INSERT && operation != DELETE {
        return Err(5);
    }
    if ids_of(kind) == 0 || kind == DOMAIN || kind == RANGE {
        return Err(6);
    }
    let makes_property = operation == INSERT && kind == PROPERTY;
    let used = if makes_property { 3 } else { ids_of(kind) };
    let unused = &ticket[2 + used..];
    let has_mark = a == MARK || b == MARK || (c == MARK && !makes_property);
    if unused.iter().any(|byte| *byte != 0) || has_mark {
        return Err(7);
    }
    Ok(match operation {
        INSERT if makes_property => Asked::Insert(vec![property(a), domain(a, b), range(a, c)]),
        INSERT => Asked::Insert(vec![fact(kind, a, b, c)]),
        _ => Asked::Delete(fact(kind, a, b, c)),
    })
}

/// The graph that the ticket leaves, or refusal 8, 9, 16 or 10.
pub fn changed(old: &Graph, asked: &Asked) -> Result<Graph, u8> {
    match asked {
        Asked::Delete(fact) if is_guarded(*fact) => Err(8),
        Asked::Delete(fact) if !old.has(*fact) => Ok(old.clone()),
        Asked::Delete(fact) => Ok(largest(old, *fact).expect("there is a largest part")),
        Asked::Insert(facts) if uses_unknown_property(old, facts) => Err(9),
        Asked::Insert(facts) if names_unknown_class(old, facts) => Err(16),
        Asked::Insert(facts) => smallest(old, facts).ok_or(10),
    }
}

/// Refusal 8: Cl(0), and every CSub and CI with b = 0.
pub fn is_guarded(fact: Fact) -> bool {
    fact == class(RESOURCE) || (matches!(fact.kind, SUBCLASS | MEMBER) && fact.b == RESOURCE)
}

/// Refusal 9: PSub uses a and b, PI uses c, Excl uses a.
fn uses_unknown_property(graph: &Graph, asked: &[Fact]) -> bool {
    asked.iter().any(|fact| match fact.kind {
        SUBPROPERTY => !graph.has(property(fact.a)) || !graph.has(property(fact.b)),
        VALUE => !graph.has(property(fact.c)),
        EXCLUSIVE => !graph.has(property(fact.a)),
        _ => false,
    })
}

/// Refusal 16: CI names b.
fn names_unknown_class(graph: &Graph, asked: &[Fact]) -> bool {
    asked.iter().any(|fact| fact.kind == MEMBER && !graph.has(class(fact.b)))
}
