//! Tickets drawn from small ranges of ids, so that they meet.

use super::Random;

/// From which ids a list's tickets are drawn: first and last of each sort.
#[derive(Clone, Copy)]
pub struct Ids {
    pub classes: (u8, u8),
    pub properties: (u8, u8),
    pub individuals: (u8, u8),
    pub literals: (u8, u8),
    /// One id in so many is drawn from 0 to 12 whatever its sort.
    pub strays: usize,
    /// One ticket in so many deletes.
    pub deletions: usize,
}

/// All sorts share five ids: most insertions clash.
pub const SHARED: Ids = Ids {
    classes: (2, 6),
    properties: (2, 6),
    individuals: (2, 6),
    literals: (2, 6),
    strays: 10,
    deletions: 3,
};

/// A handful of ids of each sort.
pub const FEW: Ids = Ids {
    classes: (2, 4),
    properties: (5, 7),
    individuals: (8, 9),
    literals: (10, 11),
    strays: 40,
    deletions: 5,
};

/// Enough ids for deep trees and chains of properties.
pub const MANY: Ids = Ids {
    classes: (2, 12),
    properties: (20, 27),
    individuals: (40, 49),
    literals: (60, 63),
    strays: 60,
    deletions: 9,
};

/// Ids in plenty: tables fill.
pub const PLENTY: Ids = Ids {
    classes: (2, 40),
    properties: (50, 70),
    individuals: (80, 200),
    literals: (201, 255),
    strays: 400,
    deletions: 40,
};

pub const ALL_IDS: [Ids; 4] = [SHARED, FEW, MANY, PLENTY];

fn id(random: &mut Random, ids: &Ids, (first, last): (u8, u8)) -> u8 {
    if random.is_one_in(ids.strays) {
        return random.below(13) as u8;
    }
    first + random.below(usize::from(last - first) + 1) as u8
}

/// A class, or rdfs:Resource now and then.
fn class(random: &mut Random, ids: &Ids) -> u8 {
    if random.is_one_in(12) {
        return 0;
    }
    id(random, ids, ids.classes)
}

/// Two ids, mostly with the lower one under the higher, so that trees grow deep before they clash.
fn link(random: &mut Random, ids: &Ids, sort: (u8, u8)) -> [u8; 3] {
    let (a, b) = (id(random, ids, sort), id(random, ids, sort));
    if random.is_one_in(6) {
        [a, b, 0]
    } else {
        [a.min(b), a.max(b), 0]
    }
}

/// A ticket of five bytes, well formed but for strays. One in four is about exclusive properties.
pub fn ticket(random: &mut Random, ids: &Ids) -> [u8; 5] {
    if random.is_one_in(4) {
        return holder_ticket(random, ids);
    }
    let operation = if random.is_one_in(ids.deletions) { 2 } else { 1 };
    let kind = random.pick(&[1, 2, 2, 3, 4, 5, 5, 5, 6, 6, 6, 9, 9, 9, 10, 10, 10, 10, 11, 11]);
    let [a, b, c] = match kind {
        1 => [class(random, ids), 0, 0],
        2 if operation == 2 => [id(random, ids, ids.properties), 0, 0],
        2 => made_property(random, ids),
        3 => [id(random, ids, ids.individuals), 0, 0],
        4 => [id(random, ids, ids.literals), 0, 0],
        5 if random.is_one_in(15) => [class(random, ids), class(random, ids), 0],
        5 => link(random, ids, ids.classes),
        6 => link(random, ids, ids.properties),
        9 => member(random, ids),
        10 => value(random, ids),
        _ => [id(random, ids, ids.properties), 0, 0],
    };
    [operation, kind, a, b, c]
}

/// The ids of a sort cut down to the first so many.
fn first_of((first, last): (u8, u8), count: u8) -> (u8, u8) {
    (first, last.min(first + count - 1))
}

/// A ticket about exclusive properties: four properties, one under the other, and four individuals that share
/// a few values. Links, Excl and values come and go: a value meets another holder at once or higher up.
pub fn holder_ticket(random: &mut Random, ids: &Ids) -> [u8; 5] {
    let (properties, individuals) = (first_of(ids.properties, 4), first_of(ids.individuals, 4));
    let operation = if random.is_one_in(ids.deletions) { 2 } else { 1 };
    let property = id(random, ids, properties);
    match random.below(14) {
        0..=2 if operation == 1 => [1, 2, property, 0, random.pick(&[0, 0, 0, 1])],
        0..=2 => [2, 2, property, 0, 0],
        3 | 4 => {
            let [a, b, c] = link(random, ids, properties);
            [operation, 6, a, b, c]
        }
        5..=7 => [operation, 11, exclusive_id(random, ids, property), 0, 0],
        _ => {
            let shared = random.pick(&[first_of(ids.literals, 2), first_of(individuals, 2)]);
            [operation, 10, id(random, ids, individuals), id(random, ids, shared), property]
        }
    }
}

/// The property, or now and then an id of another sort.
fn exclusive_id(random: &mut Random, ids: &Ids, property: u8) -> u8 {
    if !random.is_one_in(10) {
        return property;
    }
    let sort = random.pick(&[ids.classes, ids.individuals, ids.literals, (0, 255)]);
    id(random, ids, sort)
}

/// So many tickets about exclusive properties; the first ones make these, all to individuals or all to
/// literals.
pub fn holders(random: &mut Random, ids: &Ids, count: usize) -> Vec<u8> {
    let ((first, last), range) = (first_of(ids.properties, 4), random.pick(&[0, 1]));
    let made = (first..=last).map(|property| [1, 2, property, 0, range]).collect::<Vec<[u8; 5]>>();
    let drawn = (0..count).map(|_| holder_ticket(random, ids)).collect::<Vec<[u8; 5]>>();
    [made, drawn].concat().concat()
}

/// An individual in a class, or now and then in what is hardly one.
fn member(random: &mut Random, ids: &Ids) -> [u8; 3] {
    if random.is_one_in(8) {
        return misspelt_member(random, ids);
    }
    [id(random, ids, ids.individuals), class(random, ids), 0]
}

/// An individual, or Resource, in what is hardly a class: an id of another sort, any id, or itself.
fn misspelt_member(random: &mut Random, ids: &Ids) -> [u8; 3] {
    let a = if random.is_one_in(4) { 0 } else { id(random, ids, ids.individuals) };
    let sort = random.pick(&[ids.properties, ids.individuals, ids.literals]);
    let (other, any) = (id(random, ids, sort), random.byte());
    [a, random.pick(&[other, other, any, a]), 0]
}

/// So many insertions of members, few of them in a class.
pub fn misspelt(random: &mut Random, ids: &Ids, count: usize) -> Vec<u8> {
    let mut draw = || {
        let [a, b, c] = misspelt_member(random, ids);
        [1, 9, a, b, c]
    };
    (0..count).flat_map(|_| draw()).collect()
}

/// A ticket; three members in four are of one of these classes.
pub fn ticket_with(random: &mut Random, ids: &Ids, classes: &[u8]) -> [u8; 5] {
    let mut drawn = ticket(random, ids);
    if drawn[1] == 9 && !random.is_one_in(4) {
        drawn[3] = random.pick(classes);
    }
    drawn
}

/// A property with its domain and range. One in three has Resource at both ends, which most links allow; of
/// the others one range in four is the mark.
fn made_property(random: &mut Random, ids: &Ids) -> [u8; 3] {
    let made = id(random, ids, ids.properties);
    if random.is_one_in(3) {
        return [made, 0, 0];
    }
    let range = if random.is_one_in(4) { 1 } else { class(random, ids) };
    [made, class(random, ids), range]
}

fn value(random: &mut Random, ids: &Ids) -> [u8; 3] {
    let sort = random.pick(&[ids.individuals, ids.individuals, ids.literals]);
    let held = id(random, ids, sort);
    [id(random, ids, ids.individuals), held, id(random, ids, ids.properties)]
}

/// Five bytes of which one or two are drawn freely.
pub fn bad_ticket(random: &mut Random, ids: &Ids) -> [u8; 5] {
    let mut bytes = ticket(random, ids);
    for _ in 0..1 + random.below(2) {
        let (place, free) = (random.below(5), random.byte());
        bytes[place] = if random.is_one_in(2) { free % 13 } else { free };
    }
    bytes
}

/// Bytes of any length up to eight, mostly not five.
pub fn short_ticket(random: &mut Random) -> Vec<u8> {
    let length = random.below(9);
    (0..length).map(|_| random.byte() % 12).collect()
}

/// A ticket of any sort: most are good, some are bad, some have another length.
pub fn any_ticket(random: &mut Random, ids: &Ids) -> Vec<u8> {
    match random.below(12) {
        0 => bad_ticket(random, ids).to_vec(),
        1 => short_ticket(random),
        _ => ticket(random, ids).to_vec(),
    }
}

/// So many tickets, one in twenty bad. Most members are of classes that the tickets before may have made.
pub fn records(random: &mut Random, ids: &Ids, count: usize) -> Vec<u8> {
    let (mut tickets, mut classes) = (Vec::new(), vec![0]);
    for _ in 0..count {
        let is_bad = random.is_one_in(20);
        let drawn = if is_bad { bad_ticket(random, ids) } else { ticket_with(random, ids, &classes) };
        if let [1, 1 | 5, a, ..] = drawn {
            classes.push(a);
        }
        tickets.extend(drawn);
    }
    tickets
}

/// A list of so many tickets, one in twenty bad, with up to four bytes left over.
pub fn list(random: &mut Random, ids: &Ids, count: usize) -> Vec<u8> {
    let mut bytes = records(random, ids, count);
    let leftover = random.below(5);
    bytes.extend((0..leftover).map(|_| random.byte()));
    bytes
}
