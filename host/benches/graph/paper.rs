//! The graph (5,5) of source document 000, section 7: five classes and five properties, each pair linked,
//! with five instances at the bottom, ten at the next, and so on; beside them one loose class and one loose
//! property.

use crate::plant::Bytes;
use crate::rivals::fact::*;

const CLASSES: [u8; 5] = [2, 3, 4, 5, 6];
const PROPERTIES: [u8; 5] = [20, 21, 22, 23, 24];
const LOOSE: (u8, u8) = (15, 35);
const FIRST_INDIVIDUAL: u8 = 40;

/// The tickets that make the graph; they leave 251 facts.
pub fn tickets() -> Vec<Bytes> {
    let mut tickets: Vec<Bytes> = CLASSES.map(|class| [1, CLASS, class, 0, 0]).to_vec();
    tickets.push([1, CLASS, LOOSE.0, 0, 0]);
    tickets.extend(links(SUBCLASS, &CLASSES));
    tickets.extend(
        PROPERTIES.iter().zip(CLASSES).map(|(property, class)| [1, PROPERTY, *property, class, class]),
    );
    tickets.push([1, PROPERTY, LOOSE.1, LOOSE.0, LOOSE.0]);
    tickets.extend(links(SUBPROPERTY, &PROPERTIES));
    let placed = (0..25).map(|place: u8| (FIRST_INDIVIDUAL + place, usize::from(place / 5)));
    tickets.extend(placed.clone().map(|(x, level)| [1, MEMBER, x, CLASSES[level], 0]));
    tickets.extend(placed.map(|(x, level)| [1, VALUE, x, next_of_five(x), PROPERTIES[level]]));
    tickets
}

/// A link for each couple, the earlier under the later.
fn links(kind: u8, ids: &[u8]) -> Vec<Bytes> {
    let couples =
        ids.iter().enumerate().flat_map(|(place, low)| ids[place + 1..].iter().map(move |high| (low, high)));
    couples.map(|(low, high)| [1, kind, *low, *high, 0]).collect()
}

/// The individuals of a level have each other as values, in a ring.
fn next_of_five(x: u8) -> u8 {
    match (x - FIRST_INDIVIDUAL) % 5 {
        4 => x - 4,
        _ => x + 1,
    }
}
