//! Long lists of tickets that change the table all along.

use super::tickets::{bad_ticket, ticket, Ids};
use super::Random;
use std::ops::RangeInclusive;

/// Program one reads so many tickets at once.
pub const TICKETS_AT_ONCE: usize = 3_200;

/// So few ids, and so many deletions, that what one ticket puts in another soon takes out. No stray takes the
/// place of a property, without which most tickets would change nothing.
const MIXED: Ids = Ids {
    classes: (2, 8),
    properties: (43, 46),
    individuals: (13, 22),
    literals: (23, 29),
    strays: 60,
    deletions: 4,
};

/// The classes and the individuals of a tree.
const TREE: RangeInclusive<u8> = 30..=42;
const LEAVES: RangeInclusive<u8> = 80..=149;

/// Mixed tickets, one in twenty bad. Where program one has read as many as it reads at once, a tree of 1,154
/// facts stands as well, from ten tickets before to ten after.
pub fn long_list(random: &mut Random, count: usize) -> Vec<[u8; 5]> {
    let mut tickets = Vec::new();
    for end in (TICKETS_AT_ONCE..).step_by(TICKETS_AT_ONCE) {
        let (grown, felled) = (grown_tree(random), felled_tree(random));
        add_mixed(random, &mut tickets, end - 10 - grown.len());
        tickets.extend(grown);
        add_mixed(random, &mut tickets, end + 10);
        tickets.extend(felled);
        if tickets.len() >= count {
            break;
        }
    }
    tickets.truncate(count);
    tickets
}

/// Mixed tickets that leave the tree alone, up to a length of the list.
fn add_mixed(random: &mut Random, tickets: &mut Vec<[u8; 5]>, length: usize) {
    while tickets.len() < length {
        let is_bad = random.is_one_in(20);
        let drawn = if is_bad { bad_ticket(random, &MIXED) } else { ticket(random, &MIXED) };
        if !drawn.iter().any(|id| TREE.contains(id) || LEAVES.contains(id)) {
            tickets.push(drawn);
        }
    }
}

/// Classes one under the other and members of the lowest: its link first, which makes it, all others in any
/// order.
fn grown_tree(random: &mut Random) -> Vec<[u8; 5]> {
    let links = TREE.zip(TREE.skip(1)).map(|(low, high)| [1, 5, low, high, 0]);
    let members = LEAVES.map(|leaf| [1, 9, leaf, *TREE.start(), 0]);
    let mut tickets: Vec<[u8; 5]> = links.chain(members).collect();
    random.shuffle(&mut tickets[1..]);
    tickets
}

/// The classes first, which take most of the facts with them.
fn felled_tree(random: &mut Random) -> Vec<[u8; 5]> {
    let mut classes: Vec<[u8; 5]> = TREE.map(|class| [2, 1, class, 0, 0]).collect();
    random.shuffle(&mut classes);
    classes.into_iter().chain(LEAVES.map(|leaf| [2, 3, leaf, 0, 0])).collect()
}
