//! Lists of tickets for program one.

use crate::plant::{Bytes, Plant};
use crate::rivals::fact::*;
use crate::rivals::sorted::Sorted;
use crate::rivals::Rival;
use crate::sequence::Sequence;

/// Refusal 16.
const UNKNOWN_CLASS: u8 = 16;

/// Tickets drawn from all bytes that come near: operation 1 or 2, kinds 1 to 10, ids 0 to 31. Most are
/// refused.
pub fn mostly_bad(count: usize) -> Vec<u8> {
    let mut random = Sequence::of_seed(1);
    let mut draw = || [2, 10, 32, 32, 32].map(|end| random.below(end) as u8);
    let tickets =
        (0..count).map(|_| draw()).map(|[operation, kind, a, b, c]| [operation + 1, kind + 1, a, b, c]);
    tickets.collect::<Vec<Bytes>>().concat()
}

/// Plants that fill a table of 2,048 words, each taken down again by deletions, the last ticket first. Every
/// second one is in any order that puts the properties first and a class before its members.
pub fn plants(count: usize) -> Vec<u8> {
    plants_with(count, |tickets| [taken_down(tickets), cleared(tickets)].concat())
}

/// The same plants, each cleared by the deletion of every id.
pub fn filled_plants(count: usize) -> Vec<u8> {
    plants_with(count, cleared)
}

fn plants_with(count: usize, deletions: fn(&[Bytes]) -> Vec<Bytes>) -> Vec<u8> {
    let mut list = Vec::new();
    let mut seed = 0;
    while list.len() < 5 * count {
        seed += 1;
        let mut tickets = Plant::draw(seed, MOST_WORDS).tickets;
        if seed % 2 == 0 {
            Sequence::of_seed(seed).shuffle(&mut tickets);
            tickets.sort_by_key(|ticket| ticket[1] != PROPERTY);
            tickets = in_order(&tickets);
        }
        list.extend(tickets.concat());
        list.extend(deletions(&tickets).concat());
    }
    list
}

/// The image of a plant's class tree and properties, and so many operators' tickets on it: the plant's
/// members, values and literals in any order, which fill a table of 2,048 words, then their deletions, and
/// again.
pub fn shifts(count: usize) -> (Vec<u8>, Vec<u8>) {
    let is_operators = |ticket: &Bytes| [LITERAL, MEMBER, VALUE].contains(&ticket[1]);
    let (mut own, others): (Vec<Bytes>, Vec<Bytes>) =
        Plant::draw(1, MOST_WORDS).tickets.into_iter().partition(is_operators);
    let (mut table, mut random, mut list) = (Sorted::fresh(), Sequence::of_seed(1), Vec::new());
    assert!(others.iter().all(|ticket| table.apply(ticket).number == 0), "a ticket is refused");
    while list.len() < 5 * count {
        random.shuffle(&mut own);
        list.extend([own.clone(), taken_down(&own), cleared(&own)].concat().concat());
    }
    list.truncate(5 * count);
    (table.image(), list)
}

/// The same tickets, a member's held back until its class stands.
fn in_order(tickets: &[Bytes]) -> Vec<Bytes> {
    let (mut table, mut ordered, mut waiting) = (Sorted::fresh(), Vec::new(), Vec::new());
    let mut run = |ticket: &Bytes| {
        let stands = table.apply(ticket).number != UNKNOWN_CLASS;
        ordered.extend(stands.then_some(*ticket));
        stands
    };
    for ticket in tickets {
        if run(ticket) {
            waiting.retain(|member| !run(member));
        } else {
            waiting.push(*ticket);
        }
    }
    assert!(waiting.is_empty(), "a class is not made");
    ordered
}

/// Deletes what each ticket asked, the last first.
fn taken_down(tickets: &[Bytes]) -> Vec<Bytes> {
    let asked = tickets.iter().rev().filter(|ticket| ticket[1] > LITERAL);
    asked.map(|[_, kind, a, b, c]| [2, *kind, *a, *b, *c]).collect()
}

/// Deletes every id.
fn cleared(tickets: &[Bytes]) -> Vec<Bytes> {
    let mut deletions = Vec::new();
    for kind in [INDIVIDUAL, LITERAL, PROPERTY, CLASS] {
        let mut ids: Vec<u8> = tickets.iter().flat_map(|ticket| ids_of(kind, ticket)).collect();
        ids.sort();
        ids.dedup();
        deletions.extend(ids.iter().map(|id| [2, kind, *id, 0, 0]));
    }
    deletions
}

/// The ids of a sort that a plant's ticket names, as far as its form tells.
fn ids_of(sort: u8, &[_, kind, a, b, _]: &Bytes) -> Vec<u8> {
    match (sort, kind) {
        (CLASS, CLASS | SUBCLASS) | (PROPERTY, PROPERTY) | (INDIVIDUAL, MEMBER) | (LITERAL, LITERAL) => {
            vec![a]
        }
        (LITERAL, VALUE) => vec![b],
        _ => Vec::new(),
    }
}

/// Insertions and deletions among 31 ids, one ticket in fifty bad: the graph stays small and tightly linked.
/// Where a member comes into a class that the table lacks, the ticket before makes the class.
pub fn dense(count: usize) -> Vec<u8> {
    let (mut random, mut table, mut list) = (Sequence::of_seed(1), Sorted::fresh(), Vec::new());
    while list.len() < 5 * count {
        let mut ticket = dense_ticket(&mut random);
        if random.is_one_in(50) {
            ticket[random.below(5)] = random.below(12) as u8;
        }
        if table.apply(&ticket).number == UNKNOWN_CLASS {
            let class = [1, CLASS, ticket[3], 0, 0];
            let mut next = table.clone();
            if [class, ticket].iter().all(|ticket| next.apply(ticket).number == 0) {
                table = next;
                list.extend(class);
            }
        }
        list.extend(ticket);
    }
    list.truncate(5 * count);
    list
}

fn dense_ticket(random: &mut Sequence) -> Bytes {
    let operation = if random.is_one_in(3) { 2 } else { 1 };
    let kind = random.pick(&[1, 2, 3, 4, 5, 5, 5, 6, 6, 9, 9, 9, 10, 10, 10, 10]);
    let mut id = |first: u8, last: u8| first + random.below(usize::from(last - first) + 1) as u8;
    let [a, b, c] = match kind {
        CLASS => [id(2, 11), 0, 0],
        PROPERTY if operation == 2 => [id(12, 16), 0, 0],
        PROPERTY => [id(12, 16), id(2, 11), id(2, 11)],
        INDIVIDUAL => [id(17, 26), 0, 0],
        LITERAL => [id(27, 31), 0, 0],
        SUBCLASS => ascending([id(2, 11), id(2, 11), 0]),
        SUBPROPERTY => ascending([id(12, 16), id(12, 16), 0]),
        MEMBER => [id(17, 26), id(2, 11), 0],
        _ => [id(17, 26), id(17, 31), id(12, 16)],
    };
    [operation, kind, a, b, c]
}

/// The lower id under the higher, so that links rarely close a circle.
fn ascending([a, b, c]: [u8; 3]) -> [u8; 3] {
    [a.min(b), a.max(b), c]
}
