//! `facts`: all facts in words.

use crate::args;
use crate::failure::{Answer, Failure};
use crate::files::{Image, NamesFile};
use clap::ArgMatches;
use std::fmt::Write;
use vimelosa_host::{Fact, Kind, Names};

pub fn run(matches: &ArgMatches) -> Result<Answer, Failure> {
    let path = args::path_of(matches, "IMAGE");
    let kind = matches.get_one::<String>("kind").map(|word| read_kind(word)).transpose()?;
    let graph = Image::read(path)?.graph;
    let names = NamesFile::read_unless_ids(matches, path)?;
    let mut lines = Lines { names: names.as_ref(), text: String::new() };
    match kind {
        Some(kind) => graph.facts(kind).for_each(|fact| lines.put("", fact)),
        None => graph.all_facts().for_each(|fact| lines.put("", fact)),
    }
    Ok(Answer::of(lines.text))
}

fn read_kind(word: &str) -> Result<Kind, Failure> {
    word.parse().map_err(|_| {
        let kinds: Vec<String> = Kind::ALL.iter().map(Kind::to_string).collect();
        Failure::new(
            format!("no kind is called {word}"),
            "--kind",
            format!("give one of {}", kinds.join(", ")),
        )
    })
}

/// Facts in words, one a line, with names or else with ids.
pub struct Lines<'a> {
    pub names: Option<&'a Names>,
    pub text: String,
}

impl Lines<'_> {
    /// Puts a line for the fact, after the sign.
    pub fn put(&mut self, sign: &str, fact: Fact) {
        let written = match self.names {
            Some(names) => writeln!(self.text, "{sign}{}", names.show(fact)),
            None => writeln!(self.text, "{sign}{fact}"),
        };
        written.expect("a string takes any text");
    }
}
