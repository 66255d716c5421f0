//! Changes of a text's lines that leave each line inside the profile.

use super::lines::*;
use super::tickets::{ticket, FEW};
use crate::independent::fact::*;
use crate::independent::triples::Term;

/// Facts with Resource where no consistent table has it.
const ODD: &[[u8; 4]] = &[
    [PROPERTY, 0, 0, 0],
    [SUBCLASS, 0, 2, 0],
    [SUBCLASS, 0, 0, 0],
    [SUBPROPERTY, 0, 5, 0],
    [SUBPROPERTY, 5, 0, 0],
    [DOMAIN, 0, 2, 0],
    [RANGE, 0, 2, 0],
    [RANGE, 0, MARK, 0],
    [MEMBER, 0, 0, 0],
    [MEMBER, 0, 2, 0],
    [VALUE, 0, 8, 5],
    [VALUE, 8, 0, 5],
    [VALUE, 8, 9, 0],
    [VALUE, 0, 0, 0],
    [EXCLUSIVE, 0, 0, 0],
];

/// Each with its name.
pub const INSIDE: &[(&str, Change)] = &[
    ("a line less", |random, lines| {
        last(lines);
        lines.remove(random.below(lines.len()));
    }),
    ("a line less, however often it stands", |random, lines| {
        let line = any(random, lines).clone();
        lines.retain(|other| *other != line);
    }),
    ("no line of the class Resource", |_, lines| lines.retain(|line| *line != class_line())),
    ("no line at all", |_, lines| lines.clear()),
    ("the line of another fact", |random, lines| {
        let [_, kind, a, b, c] = ticket(random, &FEW);
        let [kind, c] = random.pick(&[[kind, c], [DOMAIN, 0], [RANGE, 0]]);
        put_fact(random, lines, fact(kind, a, b, c));
    }),
    ("the line of any fact", |random, lines| {
        let [a, b, c] = [(); 3].map(|_| random.byte());
        let kind = 1 + random.below(11) as u8;
        let used = |place: usize, id: u8| if place < ids_of(kind) { id } else { 0 };
        put_fact(random, lines, fact(kind, used(0, a), used(1, b), used(2, c)));
    }),
    ("a value the other way round", |random, lines| {
        let terms: Vec<String> = any(random, lines).split(' ').map(str::to_string).collect();
        if terms[2].starts_with("<urn:id:") {
            put(random, lines, &format!("{} {} {} .\n", terms[2], terms[1], terms[0]));
        }
    }),
    ("Resource where no table has it", |random, lines| {
        let [kind, a, b, c] = random.pick(ODD);
        put_fact(random, lines, fact(kind, a, b, c));
    }),
    ("a member that is none of Resource", |random, lines| put_fact(random, lines, member(250, 2))),
    ("a literal that is a subject", |random, lines| {
        put_fact(random, lines, class(2));
        let subjects = lines.iter().filter_map(|line| line.strip_prefix("<urn:id:")?.split('>').next());
        let term = format!("\"{}\"", random.pick(&subjects.collect::<Vec<&str>>()));
        put_value(random, lines, &term);
    }),
    ("an exclusive property more", |random, lines| {
        let subject = 2 + random.below(12);
        put_fact(random, lines, exclusive(subject as u8));
    }),
    ("another holder", |random, lines| {
        let terms: Vec<String> = any(random, lines).split(' ').skip(1).map(str::to_string).collect();
        if terms[0].starts_with("<urn:id:") {
            let subject = 2 + random.below(12);
            put(random, lines, &format!("<urn:id:{subject}> {}", terms.join(" ")));
        }
    }),
    ("a value more", |random, lines| {
        let n = 2 + random.below(254);
        let term = random.pick(&[Term::Id(n as u8), Term::Literal(n as u8)]);
        put_value(random, lines, &term.text());
    }),
];
