//! Plant graphs: a tree of classes, properties with domains and ranges and properties under them, individuals
//! (devices, ports, containers) in the classes, values between them, and literals. The same seed gives the
//! same tickets.

use crate::rivals::fact::*;
use crate::rivals::sorted::Sorted;
use crate::rivals::Rival;
use crate::sequence::Sequence;

pub type Bytes = [u8; 5];

const FIRST_CLASS: u8 = 2;
const FIRST_PROPERTY: u8 = 60;
const FIRST_LITERAL: u8 = 80;
pub const FIRST_INDIVIDUAL: u8 = 112;
const LAST_INDIVIDUAL: u8 = 254;

/// An individual that no plant has.
pub const NEW_INDIVIDUAL: u8 = 255;

/// An id that no plant has, next to those of the classes.
pub const NO_CLASS: u8 = FIRST_PROPERTY - 1;

/// A class that stands under one of the roots in every plant.
pub const SECOND_CLASS: u8 = FIRST_CLASS + ROOTS;

/// The top of the tree: device, port, container.
const ROOTS: u8 = 3;
const DEEPEST: usize = 5;

/// After so many values in a row that did not fit, something else is drawn.
const TRIES: usize = 60;

/// A plant while its tickets are drawn.
pub struct Plant {
    random: Sequence,
    most: usize,
    table: Sorted,
    /// The accepted tickets, in the order drawn; run on a fresh table they leave the graph.
    pub tickets: Vec<Bytes>,
    /// The class over each class, 0 for the roots, and how deep it is.
    parents: Vec<(u8, usize)>,
    /// Domain and range of each property.
    properties: Vec<(u8, u8)>,
}

impl Plant {
    /// A plant of `most` facts, or as near below as the drawn values come.
    pub fn draw(seed: u32, most: usize) -> Plant {
        let mut plant = Plant {
            random: Sequence::of_seed(seed),
            most,
            table: Sorted::fresh(),
            tickets: Vec::new(),
            parents: Vec::new(),
            properties: Vec::new(),
        };
        plant.draw_classes(4 + most / 56);
        plant.draw_properties(3 + most / 128);
        plant.draw_individuals(8 + most / 16);
        plant.draw_values(2 + most / 68);
        plant
    }

    pub fn table(&self) -> &Sorted {
        &self.table
    }

    /// The class that a class stands directly under.
    pub fn over(&self, class: u8) -> u8 {
        self.parents[usize::from(class - FIRST_CLASS)].0
    }

    /// Runs a ticket and keeps it if it changes something and the graph stays within bounds.
    fn offer(&mut self, ticket: Bytes) -> bool {
        let mut next = self.table.clone();
        let answer = next.apply(&ticket);
        let fits = answer.number == 0 && answer.added > 0 && next.count_facts() <= self.most;
        if fits {
            self.table = next;
            self.tickets.push(ticket);
        }
        fits
    }

    fn draw_classes(&mut self, count: usize) {
        for place in 0..count as u8 {
            let class = FIRST_CLASS + place;
            if place < ROOTS {
                self.parents.push((RESOURCE, 1));
                self.offer([1, CLASS, class, 0, 0]);
                continue;
            }
            let depths = self.parents.iter().map(|(_, depth)| *depth).enumerate();
            let open: Vec<usize> = depths.filter(|(_, depth)| *depth < DEEPEST).map(|(at, _)| at).collect();
            let parent = self.random.pick(&open);
            let over = FIRST_CLASS + parent as u8;
            self.parents.push((over, self.parents[parent].1 + 1));
            self.offer([1, SUBCLASS, class, over, 0]);
        }
    }

    /// Half of the properties stand under an earlier one, with its ends or narrower ones.
    fn draw_properties(&mut self, count: usize) {
        for place in 0..count as u8 {
            let property = FIRST_PROPERTY + place;
            if place > 1 && self.random.is_one_in(2) {
                let over = self.random.below(usize::from(place));
                let (domain, range) = self.properties[over];
                let (domain, range) = (self.class_under(domain), self.class_under(range));
                self.properties.push((domain, range));
                self.offer([1, PROPERTY, property, domain, range]);
                self.offer([1, SUBPROPERTY, property, FIRST_PROPERTY + over as u8, 0]);
            } else {
                let upper = self.parents.len().min(8);
                let domain = FIRST_CLASS + self.random.below(upper) as u8;
                let range = if self.random.is_one_in(4) {
                    MARK
                } else {
                    FIRST_CLASS + self.random.below(upper) as u8
                };
                self.properties.push((domain, range));
                self.offer([1, PROPERTY, property, domain, range]);
            }
        }
    }

    /// The class or one directly under it; the mark stays.
    fn class_under(&mut self, class: u8) -> u8 {
        let classes = (FIRST_CLASS..).zip(&self.parents);
        let mut near: Vec<u8> =
            classes.filter(|(_, (over, _))| *over == class).map(|(under, _)| under).collect();
        near.push(class);
        match class {
            MARK => MARK,
            _ => self.random.pick(&near),
        }
    }

    fn draw_individuals(&mut self, count: usize) {
        for place in 0..count as u8 {
            let class = FIRST_CLASS + self.random.below(self.parents.len()) as u8;
            self.offer([1, MEMBER, FIRST_INDIVIDUAL + place, class, 0]);
        }
    }

    /// Values between members of the properties' ends, and where these run out one more individual, until the
    /// graph is full or there are no more ids.
    fn draw_values(&mut self, literals: usize) {
        while self.table.count_facts() < self.most {
            let found = (0..TRIES).any(|_| self.draw_value(literals));
            if !found && !self.draw_more() {
                return;
            }
        }
    }

    fn draw_value(&mut self, literals: usize) -> bool {
        let place = self.random.below(self.properties.len());
        let (domain, range) = self.properties[place];
        let subjects = self.members(domain);
        let values = match range {
            MARK => (FIRST_LITERAL..).take(literals).collect(),
            class => self.members(class),
        };
        if subjects.is_empty() || values.is_empty() {
            return false;
        }
        let (x, y) = (self.random.pick(&subjects), self.random.pick(&values));
        self.offer([1, VALUE, x, y, FIRST_PROPERTY + place as u8])
    }

    /// One more individual in a class, or where it does not fit a literal.
    fn draw_more(&mut self) -> bool {
        let class = FIRST_CLASS + self.random.below(self.parents.len()) as u8;
        let individuals = FIRST_INDIVIDUAL..=LAST_INDIVIDUAL;
        let literals = FIRST_LITERAL..FIRST_INDIVIDUAL;
        let unused = |sort: u8, x: &u8| !self.table.words().contains(&word(sort, *x, 0, 0));
        let individual = individuals.clone().find(|x| unused(INDIVIDUAL, x));
        let literal = literals.clone().find(|x| unused(LITERAL, x));
        individual.map_or(false, |x| self.offer([1, MEMBER, x, class, 0]))
            || literal.map_or(false, |x| self.offer([1, LITERAL, x, 0, 0]))
    }

    /// The individuals in a class.
    fn members(&self, class: u8) -> Vec<u8> {
        let facts = self.table.words().iter().map(|word| word.to_be_bytes());
        facts.filter(|[kind, _, b, _]| *kind == MEMBER && *b == class).map(|[_, a, ..]| a).collect()
    }
}
