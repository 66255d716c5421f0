//! The page of the rules, docs/RULES.md, beside the files that it speaks of; the table of each of its entries
//! is checked.

mod generator;
mod independent;

use generator::graphs::image;
use independent::fact::{ids_of, Fact};
use independent::graph::Graph;
use independent::plain;
use vimelosa_host::{check_image, Refusal, Rule};

const PAGE: &str = include_str!("../../docs/RULES.md");
const DEFINITIONS: &str = include_str!("../../crates/rdfs/specs/Rules.antt");
const ARMS: &str = include_str!("../../crates/rules/src/lib.rt");
const VISIT: &str = include_str!("../../crates/consistency/src/lib.rt");
const TABLES: &str = include_str!("../../crates/run_calls/stdin");

const KINDS: [&str; 11] = ["Cl", "Pr", "Ind", "Lit", "CSub", "PSub", "Dom", "Rng", "CI", "PI", "Excl"];

/// A text on one line, with single blanks.
fn on_one_line(text: &str) -> String {
    text.split_whitespace().collect::<Vec<_>>().join(" ")
}

/// An entry of the page: its head, `PLACE, NAME`, and its parts, each with a title.
struct Entry {
    head: String,
    parts: Vec<(String, String)>,
}

impl Entry {
    fn read(text: &str) -> Entry {
        let mut items = text.split("\n  - ");
        let head = items.next().and_then(|head| head.split("**").next()).expect("an entry has a head");
        let part = |item: &str| {
            let (title, text) = item.split_once(": ").expect("a part has a title");
            (title.to_owned(), on_one_line(text))
        };
        Entry { head: head.to_owned(), parts: items.map(part).collect() }
    }

    fn part(&self, title: &str) -> &str {
        let part = self.parts.iter().find(|part| part.0 == title);
        &part.unwrap_or_else(|| panic!("{} has no part '{title}'", self.head)).1
    }

    /// The pieces of code in a part.
    fn code(&self, title: &str) -> Vec<&str> {
        self.part(title).split('`').skip(1).step_by(2).collect()
    }
}

fn entries() -> Vec<(Rule, Entry)> {
    let sections = PAGE.split("\n## ").skip(1);
    let texts = sections.flat_map(|section| section.split("\n- **").skip(1));
    let entries: Vec<Entry> = texts.map(Entry::read).collect();
    assert_eq!(entries.len(), Rule::ALL.len());
    Rule::ALL.iter().copied().zip(entries).collect()
}

#[test]
fn has_an_entry_for_each_place_in_order() {
    for (rule, entry) in entries() {
        assert_eq!(entry.head, format!("{}, {rule}", rule.place()));
        let titles: Vec<&str> = entry.parts.iter().map(|part| &part.0[..]).collect();
        assert_eq!(titles, ["printed", "definition", "code", "proof", "stops at"]);
        assert!(entry.parts.iter().all(|part| !part.1.is_empty()));
    }
}

/// The whole clause, up to the next one.
#[test]
fn has_the_definition_of_each_rule() {
    let definitions = on_one_line(DEFINITIONS) + " Meets G";
    for (rule, entry) in entries() {
        let code = entry.code("definition");
        assert_eq!(code[0], format!("{rule:?}").to_lowercase());
        let clause = format!("Meets G {} = {} Meets G", code[0], code[1]);
        assert!(definitions.contains(&clause), "{clause}");
    }
}

#[test]
fn has_the_code_of_each_rule() {
    for (rule, entry) in entries() {
        let (file, code) = (if rule == Rule::E2 { VISIT } else { ARMS }, entry.code("code")[0]);
        let is_arm = code.starts_with(&format!("Rule::{rule:?} => "));
        assert_eq!(is_arm, rule != Rule::E2);
        assert_eq!(on_one_line(file).matches(code).count(), 1, "{code}");
    }
}

/// A fact as the page has it, such as CSub(2,0).
fn fact(text: &str) -> Fact {
    let (kind, ids) = text.strip_suffix(')').and_then(|text| text.split_once('(')).expect("a fact has ids");
    let kind = KINDS.iter().position(|name| *name == kind).expect("the kind is one") as u8 + 1;
    let ids: Vec<u8> = ids.split(',').map(|id| id.parse().expect("an id is a number")).collect();
    assert_eq!(ids.len(), ids_of(kind), "{text}");
    let id = |place: usize| ids.get(place).copied().unwrap_or(0);
    Fact { kind, a: id(0), b: id(1), c: id(2) }
}

/// The table at which the check stops, and why.
fn table(entry: &Entry) -> (Vec<Fact>, &str) {
    let (facts, why) = entry.part("stops at").split_once(": ").expect("the part says why");
    let facts = if facts == "no fact" { "" } else { facts.trim_matches('`') };
    (facts.split_whitespace().map(fact).collect(), why.trim_end_matches(" +"))
}

#[test]
fn the_check_stops_at_each_table() {
    for (rule, entry) in entries() {
        let graph = Graph::of(table(&entry).0);
        assert_eq!(check_image(&image(&graph)), Err(Refusal::Inconsistent { rule }), "{}", entry.head);
        let broken: Vec<usize> = (1..=30).filter(|place| !plain::met(&graph)[place - 1]).collect();
        assert_eq!(broken, [usize::from(rule.place())], "{}", entry.head);
    }
}

/// Program `run_calls` checks the same tables; a + says that it has more for the rule.
#[test]
fn each_table_stands_in_the_script() {
    for (rule, entry) in entries() {
        let (facts, why) = table(&entry);
        let name = rule.to_string().replace("rule ", "");
        let words: String = facts.iter().map(|fact| format!(" {:08x}", fact.word())).collect();
        let lines = format!("# {name}: {why}.\ntable 0010{words}");
        assert!(TABLES.contains(&lines), "{lines}");
        let more = TABLES.matches(&format!("\n# {name}: ")).count() > 1;
        assert_eq!(entry.part("stops at").ends_with(" +"), more, "{}", entry.head);
    }
}
