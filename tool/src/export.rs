//! `export`: the graph as a text of N-Triples.

use crate::args;
use crate::failure::{Answer, Failure};
use crate::files::{beside, refuse_sources, Image};
use crate::replace::Replacement;
use crate::text::count;
use clap::ArgMatches;
use std::collections::BTreeSet;
use std::path::Path;
use vimelosa_host::{Graph, Kind};

pub fn run(matches: &ArgMatches) -> Result<Answer, Failure> {
    let path = args::path_of(matches, "IMAGE");
    let graph = Image::read(path)?.graph;
    let text = graph.to_triples();
    let answer = match args::optional_path(matches, "output") {
        None => Answer::of(text),
        Some(output) => {
            refuse_sources("text", output, &[path, &beside(path)])?;
            Replacement::write(output, text.as_bytes())?.put_in_place()?;
            Answer::of("")
        }
    };
    Ok(answer.with_note(left_out(&graph, path)))
}

/// What the text does not have, if anything: the literals that no value has.
fn left_out(graph: &Graph, path: &Path) -> Option<String> {
    let values: BTreeSet<u8> = graph.facts(Kind::Value).map(|fact| fact.ids()[1]).collect();
    let lone = graph.body(Kind::Literal).iter().filter(|literal| !values.contains(literal)).count();
    let (verbs, them) = match lone {
        0 => return None,
        1 => ("stands in no value and is", "it"),
        _ => ("stand in no value and are", "them"),
    };
    let what = format!("{} {verbs} left out of the text", count(lone, "literal"));
    Some(Failure::new(what, path.display(), format!("keep the image, which has {them}")).to_string())
}
