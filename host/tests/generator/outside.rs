//! Changes of a text's lines that bring any text outside the profile.

use super::lines::*;
use super::Random;
use crate::independent::triples::Term;

/// Numbers that are no id from 2 to 255 in decimal without leading zeros.
const NO_IDS: &[&str] = &[
    "0",
    "1",
    "256",
    "257",
    "258",
    "300",
    "999",
    "1000",
    "2550",
    "4095",
    "65538",
    "4294967298",
    "18446744073709551618",
    "02",
    "002",
    "0255",
    "00",
    "+2",
    "-2",
    "2.0",
    "2e0",
    "0x2",
    "1:",
    "25a",
    "",
    " 2",
    "2 ",
    "\u{662}",
];

/// Terms that are none of the profile's, but near to one.
const NO_TERMS: &[&str] = &[
    "",
    ".",
    "a",
    "_:b7",
    "rdf:type",
    "<>",
    "<7>",
    "<urn:id:7",
    "urn:id:7>",
    "<<urn:id:7>",
    "<urn:id:7>>",
    "<urn:id7>",
    "<urn:ids:7>",
    "<urn:mark:excl",
    "<urn:mark:exc>",
    "<urn:mark:excl2>",
    "<urn:mark:exclusive>",
    "<urn:mark:>",
    "<urn:mark:7>",
    "<urn:mark:excl/>",
    "<urn:id:excl>",
    "urn:mark:excl",
    "\"<urn:mark:excl>\"",
    "<http://www.w3.org/2000/01/rdf-schema#>",
    "<http://www.w3.org/2000/01/rdf-schema#Resource",
    "<http://www.w3.org/2000/01/rdf-schema#Resources>",
    "<http://www.w3.org/2000/01/rdf-schema#Datatype>",
    "<http://www.w3.org/2000/01/rdf-schema#Property>",
    "<http://www.w3.org/2000/01/rdf-schema#type>",
    "<http://www.w3.org/2000/01/rdf-schema#label>",
    "<https://www.w3.org/2000/01/rdf-schema#Resource>",
    "<http://www.w3.org/2000/01/rdf-schema/Resource>",
    "<http://www.w3.org/1999/02/22-rdf-syntax-ns#Class>",
    "<http://www.w3.org/1999/02/22-rdf-syntax-ns#Resource>",
    "<http://www.w3.org/1999/02/22-rdf-syntax-ns#types>",
    "<http://www.w3.org/1999/02/22-rdf-syntax-ns#typ>",
];

/// What stands behind a literal in N-Triples, and what does not.
const BEHIND: &[&str] = &[
    "^^<http://www.w3.org/2001/XMLSchema#string>",
    "^^<http://www.w3.org/2001/XMLSchema#integer>",
    "@en",
    "@en-GB",
    "\"",
    ".",
];

/// Literals in other quotes, or in one only.
const QUOTES: &[&str] =
    &["'7'", "7", "\"\"\"7\"\"\"", "\"7", "7\"", "<7>", "\"7>", "<7\"", "\" 7\"", "\"7 \"", "\"\\u0037\""];

/// The terms that stand only as predicates.
const NAMED: &[Term] = &[Term::Type, Term::SubclassOf, Term::SubpropertyOf, Term::Domain, Term::Range];

/// The terms that stand only as objects of rdf:type.
const SORTS: &[Term] = &[Term::Class, Term::Property, Term::Exclusive];

/// Each with its name. A text without lines gets one first.
pub const OUTSIDE: &[(&str, Change)] = &[
    ("no newline at the end", |_, lines| {
        last(lines).pop();
    }),
    ("the last line cut off", |random, lines| {
        let line = last(lines);
        line.truncate(1 + random.below(line.len() - 1));
    }),
    ("a carriage return", |random, lines| replace(random, lines, "\n", &["\r\n"])),
    ("a carriage return for a newline", |random, lines| replace(random, lines, "\n", &["\r"])),
    ("carriage returns everywhere", |_, lines| {
        last(lines);
        lines.iter_mut().for_each(|line| *line = line.replace('\n', "\r\n"));
    }),
    ("no newline between two lines", |random, lines| {
        last(lines);
        lines.push(class_line());
        let place = random.below(lines.len() - 1);
        lines[place] = lines[place].replace('\n', random.pick(&["", " "]));
    }),
    ("another blank", |random, lines| {
        replace_blank(random, lines, &["\t", "\t ", " \t", "\r", "\0", "\u{b}", "\u{c}", "\u{a0}", "_"]);
    }),
    ("two blanks", |random, lines| replace_blank(random, lines, &["  ", "   "])),
    ("no blank", |random, lines| replace_blank(random, lines, &[""])),
    ("a newline for a blank", |random, lines| replace_blank(random, lines, &["\n", " \n", "\n "])),
    ("a blank at the start", |random, lines| any(random, lines).insert(0, ' ')),
    ("a blank at the end", |random, lines| replace(random, lines, "\n", &[" \n"])),
    ("an empty line", |random, lines| put(random, lines, "\n")),
    ("a blank line", |random, lines| put(random, lines, " \n")),
    ("a comment", |random, lines| put(random, lines, "# a plant\n")),
    ("a comment behind a line", |random, lines| replace(random, lines, "\n", &[" # a plant\n", "#\n"])),
    ("a byte order mark", |_, lines| first(lines).insert(0, '\u{feff}')),
    ("a directive", |random, lines| {
        let directive = random.pick(&["@prefix id: <urn:id:> .\n", "@base <urn:id:> .\n"]);
        put(random, lines, directive);
    }),
    ("a NUL", |random, lines| {
        let line = any(random, lines);
        line.insert(random.below(line.len() + 1), '\0');
    }),
    ("a capital", |random, lines| {
        let other = |letter: char| if letter.is_uppercase() { 'c' } else { letter.to_ascii_uppercase() };
        replace_letter(random, lines, |letter| other(letter).to_string());
    }),
    ("an escape", |random, lines| replace_letter(random, lines, |x| format!("\\u{:04X}", u32::from(x)))),
    ("a percent escape", |random, lines| replace_letter(random, lines, |x| format!("%{:02X}", u32::from(x)))),
    ("no full stop", |random, lines| replace(random, lines, " .\n", &["\n", " \n"])),
    ("two full stops", |random, lines| replace(random, lines, " .\n", &[" . .\n", " ..\n", ". .\n"])),
    ("another mark for the full stop", |random, lines| replace(random, lines, ".\n", &[";\n", ",\n", "!\n"])),
    ("more behind the full stop", |random, lines| replace(random, lines, ".\n", &[". <urn:id:2>\n", ".2\n"])),
    ("a fourth term", |random, lines| replace(random, lines, " .\n", &[" <urn:id:2> .\n", " \"2\" .\n"])),
    ("two terms", |random, lines| {
        let line = any(random, lines);
        let mut terms: Vec<&str> = line.split(' ').collect();
        terms.remove(random.below(3));
        *line = terms.join(" ");
    }),
    ("a line twice in one", |random, lines| {
        let line = any(random, lines);
        *line = line.replace('\n', " ") + line.as_str();
    }),
    ("an id that is none", |random, lines| {
        let term = format!("<urn:id:{}>", random.pick(NO_IDS));
        replace_term(random, lines, &[0, 1, 2], &term);
    }),
    ("a literal that is none", |random, lines| {
        let term = format!("\"{}\"", random.pick(NO_IDS));
        put_value(random, lines, &term);
    }),
    ("more behind a literal", |random, lines| {
        let term = format!("\"{}\"{}", 2 + random.below(254), random.pick(BEHIND));
        put_value(random, lines, &term);
    }),
    ("other quotes", |random, lines| {
        let term = random.pick(QUOTES);
        put_value(random, lines, term);
    }),
    ("a term that is none", |random, lines| {
        let term = random.pick(NO_TERMS);
        replace_term(random, lines, &[0, 1, 2], term);
    }),
    ("a literal as subject or predicate", |random, lines| replace_term(random, lines, &[0, 1], "\"7\"")),
    ("a literal as class or property", |random, lines| {
        let predicate = random.pick(NAMED);
        put_terms(random, lines, &predicate.text(), "\"7\"");
    }),
    ("the mark as subject or predicate", |random, lines| {
        replace_term(random, lines, &[0, 1], &Term::Mark.text());
    }),
    ("the mark as object of another than rdfs:range", |random, lines| {
        let predicate = other_than(random, Term::Range);
        put_terms(random, lines, &predicate.text(), &Term::Mark.text());
    }),
    ("a name of a predicate as subject or object", |random, lines| {
        let name = random.pick(NAMED);
        replace_term(random, lines, &[0, 2], &name.text());
    }),
    ("Class, Property or the name of Excl as subject or predicate", |random, lines| {
        let name = random.pick(SORTS);
        replace_term(random, lines, &[0, 1], &name.text());
    }),
    ("Class, Property or the name of Excl as object of another than rdf:type", |random, lines| {
        let (predicate, name) = (other_than(random, Term::Type), random.pick(SORTS));
        put_terms(random, lines, &predicate.text(), &name.text());
    }),
    ("Excl of the mark", |random, lines| {
        let [subject, predicate, object] = [Term::Mark, Term::Type, Term::Exclusive].map(Term::text);
        put(random, lines, &format!("{subject} {predicate} {object} .\n"));
    }),
    ("an object IRI and the same literal", |random, lines| {
        let n = 2 + random.below(254);
        let mut terms = [format!("\"{n}\""), format!("<urn:id:{n}>")];
        random.shuffle(&mut terms);
        terms.iter().for_each(|term| put_value(random, lines, term));
    }),
    ("an object IRI that is a literal of the text", |random, lines| {
        put_value(random, lines, "\"7\"");
        let is_literal = |term: &&str| term.starts_with('"');
        let literals: Vec<&str> = lines.iter().flat_map(|line| line.split(' ')).filter(is_literal).collect();
        let object = format!("<urn:id:{}>", random.pick(&literals).replace('"', ""));
        put_value(random, lines, &object);
    }),
];

/// A predicate by name other than this one, or an id.
fn other_than(random: &mut Random, name: Term) -> Term {
    let predicate = random.pick(NAMED);
    if predicate == name {
        Term::Id(5)
    } else {
        predicate
    }
}
