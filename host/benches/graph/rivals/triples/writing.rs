//! A text written to a `String`, line by line.

use super::*;
use crate::rivals::fact::*;
use vimelosa_host::LONGEST_LINE;

/// The lines of ascending words.
pub fn text_of(words: &[u32]) -> String {
    let mut literals: Flags = [false; 256];
    for [kind, a, ..] in words.iter().map(|fact| fact.to_be_bytes()) {
        literals[usize::from(a)] |= kind == LITERAL;
    }
    let mut text = String::with_capacity(LONGEST_LINE * words.len());
    for fact in words {
        push_line(&mut text, *fact, &literals);
    }
    text
}

/// The line of a fact; individuals and literals have none.
fn push_line(text: &mut String, fact: u32, literals: &Flags) {
    let [kind, a, b, c] = fact.to_be_bytes();
    if kind == INDIVIDUAL || kind == LITERAL {
        return;
    }
    push_id(text, a);
    text.push(' ');
    match kind {
        SUBCLASS => text.push_str(SUB_CLASS_OF),
        SUBPROPERTY => text.push_str(SUB_PROPERTY_OF),
        DOMAIN => text.push_str(RDFS_DOMAIN),
        RANGE => text.push_str(RDFS_RANGE),
        VALUE => push_id(text, c),
        _ => text.push_str(TYPE),
    }
    text.push(' ');
    match kind {
        CLASS => text.push_str(RDFS_CLASS),
        PROPERTY => text.push_str(RDF_PROPERTY),
        EXCLUSIVE => text.push_str(EXCLUSIVE_TYPE),
        RANGE if b == MARK => text.push_str(RDFS_LITERAL),
        VALUE if literals[usize::from(b)] => push_literal(text, b),
        _ => push_id(text, b),
    }
    text.push_str(" .\n");
}

fn push_id(text: &mut String, id: u8) {
    match id {
        RESOURCE => text.push_str(RDFS_RESOURCE),
        _ => {
            text.push_str(ID);
            push_decimal(text, id);
            text.push('>');
        }
    }
}

fn push_literal(text: &mut String, id: u8) {
    text.push('"');
    push_decimal(text, id);
    text.push('"');
}

fn push_decimal(text: &mut String, number: u8) {
    if number >= 10 {
        push_decimal(text, number / 10);
    }
    text.push(char::from(b'0' + number % 10));
}
