//! `show`: the graph for a reader. Of links, members and values those are left out that follow from others:
//! a member stands under the lowest classes that it is in, a value with the lowest of its properties.

use crate::args;
use crate::failure::{Answer, Failure};
use crate::files::{Image, NamesFile};
use crate::hierarchy::{lowest_members, Hierarchy};
use crate::text::{columns, filled, length, named, WIDTH};
use clap::ArgMatches;
use std::collections::BTreeSet;
use vimelosa_host::{Fact, Graph, Kind, Names, Range};

/// A list of members has at least so much room, however deep its class stands.
const LEAST_ROOM: usize = 30;

pub fn run(matches: &ArgMatches) -> Result<Answer, Failure> {
    let path = args::path_of(matches, "IMAGE");
    let graph = Image::read(path)?.graph;
    let names = NamesFile::read(matches, path)?.names;
    let parts = [
        ("Classes: members", class_tree(&graph, &names)),
        ("Properties: domain -> range", property_tree(&graph, &names)),
        ("Values: individual, property, value", values(&graph, &names)),
        ("Literals", literals(&graph, &names)),
    ];
    let shown = parts.into_iter().filter(|(_, text)| !text.is_empty());
    let texts: Vec<String> = shown.map(|(title, text)| format!("{title}\n\n{text}")).collect();
    Ok(Answer::of(texts.join("\n")))
}

/// A place in a tree: what stands before its line, and before the lines of what is under it.
struct Branch {
    id: u8,
    before: String,
    below: String,
    is_repeated: bool,
}

/// The places of a tree in the order of its lines. What is under two stands under both, the second time
/// without what is under it.
fn branches(hierarchy: &Hierarchy) -> Vec<Branch> {
    let mut branches = Vec::new();
    let mut seen = BTreeSet::new();
    for top in hierarchy.tops() {
        let branch = Branch { id: top, before: String::new(), below: String::new(), is_repeated: false };
        put_branch(hierarchy, branch, &mut seen, &mut branches);
    }
    branches
}

fn put_branch(hierarchy: &Hierarchy, branch: Branch, seen: &mut BTreeSet<u8>, branches: &mut Vec<Branch>) {
    let is_repeated = !seen.insert(branch.id);
    let below = branch.below.clone();
    let under = if is_repeated { &[] } else { hierarchy.directly_below(branch.id) };
    branches.push(Branch { is_repeated, ..branch });
    for (place, &id) in under.iter().enumerate() {
        let (corner, line) =
            if place + 1 < under.len() { ("├── ", "│   ") } else { ("└── ", "    ") };
        let (before, below) = (format!("{below}{corner}"), format!("{below}{line}"));
        put_branch(hierarchy, Branch { id, before, below, is_repeated: false }, seen, branches);
    }
}

fn class_tree(graph: &Graph, names: &Names) -> String {
    let classes = Hierarchy::of_classes(graph);
    let mut text = String::new();
    for branch in branches(&classes) {
        let name = named(names, branch.id);
        if branch.is_repeated {
            text += &format!("{}{name} (see above)\n", branch.before);
            continue;
        }
        let members = lowest_members(graph, &classes, branch.id);
        let has_below = !classes.directly_below(branch.id).is_empty();
        text += &class_lines(names, &branch, &name, &members, has_below);
    }
    text
}

/// The class and its members on one line, or on as many as they need.
fn class_lines(names: &Names, branch: &Branch, name: &str, members: &[u8], has_below: bool) -> String {
    if members.is_empty() {
        return format!("{}{name}\n", branch.before);
    }
    let start = format!("{}{name}: ", branch.before);
    let next = format!("{}{}", branch.below, if has_below { "│       " } else { "        " });
    let room = |taken: &str| WIDTH.saturating_sub(length(taken)).max(LEAST_ROOM);
    let lines = filled(names, members, room(&start), room(&next));
    format!("{start}{}\n", lines.join(&format!("\n{next}")))
}

fn property_tree(graph: &Graph, names: &Names) -> String {
    let properties = Hierarchy::of_properties(graph);
    let rows = branches(&properties).into_iter().map(|branch| {
        let name = format!("{}{}", branch.before, named(names, branch.id));
        if branch.is_repeated {
            return [name, "(see above)".to_owned(), String::new()];
        }
        let exclusive = if graph.is_exclusive(branch.id) { "exclusive" } else { "" };
        [name, reach(graph, names, branch.id), exclusive.to_owned()]
    });
    columns(&rows.collect::<Vec<_>>())
}

/// A property's domain and range.
fn reach(graph: &Graph, names: &Names, property: u8) -> String {
    let domain = graph.domain_of(property).map(|class| named(names, class));
    let range = graph.range_of(property).map(|range| match range {
        Range::Literal => "Literal".to_owned(),
        Range::Class { class, .. } => named(names, class),
    });
    format!("{} -> {}", domain.unwrap_or_default(), range.unwrap_or_default())
}

fn values(graph: &Graph, names: &Names) -> String {
    let properties = Hierarchy::of_properties(graph);
    let is_lowest = |individual: u8, value: u8, property: u8| {
        let mut below = properties.directly_below(property).iter();
        !below.any(|&property| graph.has(Fact::Value { individual, value, property }))
    };
    let mut rows = Vec::new();
    for fact in graph.facts(Kind::Value) {
        let [individual, value, property] = fact.ids();
        if is_lowest(individual, value, property) {
            rows.push([individual, property, value].map(|id| named(names, id)));
        }
    }
    columns(&rows)
}

fn literals(graph: &Graph, names: &Names) -> String {
    let literals = graph.body(Kind::Literal);
    if literals.is_empty() {
        return String::new();
    }
    filled(names, literals, WIDTH, WIDTH).join("\n") + "\n"
}
