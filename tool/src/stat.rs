//! `stat`: how much a graph has, and of how much.

use crate::args;
use crate::failure::{Answer, Failure};
use crate::files::{Image, NamesFile};
use crate::hierarchy::Hierarchy;
use crate::text::{columns, count, filled, grouped, named};
use clap::ArgMatches;
use std::collections::BTreeSet;
use vimelosa_host::{Graph, Kind, LONGEST_IMAGE, MOST_FACTS};

/// The ids that a class, property, individual or literal can have beside Resource: 2 to 255.
const MOST_IDS: usize = 254;

pub fn run(matches: &ArgMatches) -> Result<Answer, Failure> {
    let path = args::path_of(matches, "IMAGE");
    let image = Image::read(path)?;
    let names = NamesFile::read(matches, path)?.names;
    let graph = &image.graph;

    let mut rows: Vec<[String; 2]> = Vec::new();
    for kind in Kind::ALL {
        rows.push([kind.to_string(), grouped(graph.facts(kind).len())]);
    }
    let used = used_ids(graph);
    rows.push(["facts".into(), format!("{} of {}", grouped(graph.count_facts()), grouped(MOST_FACTS))]);
    rows.push(["ids".into(), format!("{} of {MOST_IDS}", used.iter().filter(|&&id| id > 1).count())]);
    rows.push(["bytes".into(), format!("{} of {}", grouped(image.bytes.len()), grouped(LONGEST_IMAGE))]);
    let chain = Hierarchy::of_classes(graph).longest_chain();
    let path: Vec<String> = chain.iter().map(|&id| named(&names, id)).collect();
    rows.push(["deepest".into(), format!("{}: {}", count(chain.len(), "class"), path.join(" > "))]);
    let unused: Vec<u8> = names.iter().map(|(id, _)| id).filter(|id| !used.contains(id)).collect();
    if !unused.is_empty() {
        rows.push(["unused names".into(), filled(&names, &unused, usize::MAX, usize::MAX).concat()]);
    }
    Ok(Answer::of(columns(&rows)))
}

/// The ids that are a class, property, individual or literal of the graph.
pub fn used_ids(graph: &Graph) -> BTreeSet<u8> {
    let things = [Kind::Class, Kind::Property, Kind::Individual, Kind::Literal];
    things.into_iter().flat_map(|kind| graph.body(kind).to_vec()).collect()
}
