//! How the lines of a text are changed: one of them, a term of one, a line put in.

use super::Random;
use crate::independent::fact::{class, Fact, RESOURCE};
use crate::independent::triples::{line_of, terms_of};

/// A change of a text's lines, each with its newline.
pub type Change = fn(&mut Random, &mut Vec<String>);

/// The line of Cl(0).
pub fn class_line() -> String {
    terms_of(class(RESOURCE), false).map(line_of).expect("a class has a line")
}

/// A text without lines gets one first.
fn place_in(lines: &mut Vec<String>, place: impl FnOnce(usize) -> usize) -> &mut String {
    if lines.is_empty() {
        lines.push(class_line());
    }
    let place = place(lines.len());
    &mut lines[place]
}

pub fn any<'l>(random: &mut Random, lines: &'l mut Vec<String>) -> &'l mut String {
    place_in(lines, |count| random.below(count))
}

pub fn first(lines: &mut Vec<String>) -> &mut String {
    place_in(lines, |_| 0)
}

pub fn last(lines: &mut Vec<String>) -> &mut String {
    place_in(lines, |count| count - 1)
}

/// A part of some line by one of others.
pub fn replace(random: &mut Random, lines: &mut Vec<String>, part: &str, others: &[&str]) {
    let other = random.pick(others);
    let line = any(random, lines);
    *line = line.replace(part, other);
}

/// One of the three blanks of some line by one of others.
pub fn replace_blank(random: &mut Random, lines: &mut Vec<String>, others: &[&str]) {
    let other = random.pick(others);
    let line = any(random, lines);
    let blanks: Vec<usize> = line.match_indices(' ').map(|(place, _)| place).collect();
    let blank = random.pick(&blanks);
    line.replace_range(blank..blank + 1, other);
}

/// A letter of some line.
pub fn replace_letter(random: &mut Random, lines: &mut Vec<String>, other: impl Fn(char) -> String) {
    let line = any(random, lines);
    let letters: Vec<(usize, char)> = line.char_indices().filter(|(_, x)| x.is_ascii_alphabetic()).collect();
    let (place, letter) = random.pick(&letters);
    line.replace_range(place..place + 1, &other(letter));
}

/// The term of some line at one of these places.
pub fn replace_term(random: &mut Random, lines: &mut Vec<String>, places: &[usize], term: &str) {
    let place = random.pick(places);
    let line = any(random, lines);
    let mut terms: Vec<&str> = line.split(' ').collect();
    terms[place] = term;
    *line = terms.join(" ");
}

/// A line more, at any place.
pub fn put(random: &mut Random, lines: &mut Vec<String>, line: &str) {
    let place = random.below(lines.len() + 1);
    lines.insert(place, line.to_string());
}

/// A line more with this predicate and object.
pub fn put_terms(random: &mut Random, lines: &mut Vec<String>, predicate: &str, object: &str) {
    let subject = 2 + random.below(12);
    put(random, lines, &format!("<urn:id:{subject}> {predicate} {object} .\n"));
}

/// A line more with this value.
pub fn put_value(random: &mut Random, lines: &mut Vec<String>, object: &str) {
    let predicate = 2 + random.below(12);
    put_terms(random, lines, &format!("<urn:id:{predicate}>"), object);
}

/// The line of a fact more, if it is one and has a line.
pub fn put_fact(random: &mut Random, lines: &mut Vec<String>, fact: Fact) {
    let is_literal = fact.b != RESOURCE && random.is_one_in(2);
    if let Some(terms) = terms_of(fact, is_literal).filter(|_| fact.is_fact()) {
        put(random, lines, &line_of(terms));
    }
}
