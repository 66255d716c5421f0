//! Tickets as words: from the command line or a file, and understood by a graph's names.

use crate::args;
use crate::failure::Failure;
use crate::files::{input_name, read_text, without_byte_order_mark};
use crate::stat::used_ids;
use clap::ArgMatches;
use std::collections::BTreeSet;
use std::path::Path;
use vimelosa_host::{Graph, Kind, NameError, Names, Ticket};

/// A ticket's words, and the number of its line, if it comes from a file.
pub struct Given {
    pub words: String,
    pub line: Option<usize>,
}

impl Given {
    /// Its line, before what is said of it.
    pub fn label(&self) -> String {
        self.line.map(|line| format!("line {line}: ")).unwrap_or_default()
    }
}

/// All tickets that a command was given, and the name of where they come from.
pub struct Source {
    pub given: Vec<Given>,
    name: String,
}

impl Source {
    /// The one ticket of the command line, or those of the file that it names.
    pub fn read(matches: &ArgMatches) -> Result<Source, Failure> {
        match args::optional_path(matches, "file") {
            Some(path) => Source::read_file(path),
            None => {
                let words = args::words_of(matches).expect("clap asks for words or a file");
                Ok(Source { given: vec![Given { words, line: None }], name: "the command line".to_owned() })
            }
        }
    }

    /// The tickets of a file, one a line. Empty lines and lines that start with `#` are skipped.
    pub fn read_file(path: &Path) -> Result<Source, Failure> {
        let text = read_text(path)?;
        let lines = without_byte_order_mark(&text).lines().enumerate();
        let lines = lines.map(|(place, line)| (place + 1, line.trim()));
        let tickets = lines.filter(|(_, line)| !line.is_empty() && !line.starts_with('#'));
        let given =
            tickets.map(|(line, words)| Given { words: words.to_owned(), line: Some(line) }).collect();
        Ok(Source { given, name: input_name(path) })
    }

    /// Where a ticket stands, for a message.
    pub fn place(&self, given: &Given) -> String {
        match given.line {
            Some(line) => format!("line {line} of {}", self.name),
            None => self.name.clone(),
        }
    }
}

/// Tickets that can be run, the names that they are written with, and the ids that were named for them.
pub struct Understood {
    pub tickets: Vec<Ticket>,
    pub names: Names,
    pub new_ids: Vec<u8>,
}

/// Understands all tickets. A new name in an insertion takes the lowest id that neither the names nor the
/// graph have, and that no ticket here gives as a number or a byte.
pub fn understand(source: &Source, graph: &Graph, names: &Names) -> Result<Understood, Failure> {
    let mut taken = used_ids(graph);
    taken.extend(source.given.iter().flat_map(|given| ids_of(&given.words)));
    let mut understood = Understood { tickets: Vec::new(), names: names.clone(), new_ids: Vec::new() };
    for given in &source.given {
        understood.name_new(source, given, &taken)?;
        understood.tickets.push(read_ticket(source, given, &understood.names)?);
    }
    Ok(understood)
}

impl Understood {
    /// Gives an id to each new name of an insertion.
    fn name_new(&mut self, source: &Source, given: &Given, taken: &BTreeSet<u8>) -> Result<(), Failure> {
        let mut words = given.words.split_whitespace();
        if words.next() != Some("insert") {
            return Ok(());
        }
        for word in words.skip(1).filter(|word| !is_digits(word)) {
            if self.names.id_of(word).is_some() {
                continue;
            }
            let added = self.names.add(word, |id| taken.contains(&id));
            self.new_ids.push(added.map_err(|error| {
                let advice = match error {
                    NameError::NoFreeId => "delete what is no longer needed and its line in the names file",
                    _ => "choose another name",
                };
                Failure::new(error, source.place(given), advice)
            })?);
        }
        Ok(())
    }
}

/// The ticket of the words, by names that are known.
pub fn read_ticket(source: &Source, given: &Given, names: &Names) -> Result<Ticket, Failure> {
    names.read_ticket(&given.words).map_err(|error| match unknown_name(&given.words, names) {
        Some(word) => {
            let what = format!("{word:.255} is no name that is known here");
            Failure::new(what, source.place(given), "give a name of the names file, or an id")
        }
        None => Failure::new(error, source.place(given), "see TICKETS in the man page"),
    })
}

/// The first word of a ticket, after its operation and kind, that is neither an id nor a known name.
fn unknown_name<'a>(words: &'a str, names: &Names) -> Option<&'a str> {
    let mut words = words.split_whitespace();
    words.next().filter(|word| ["insert", "delete"].contains(word))?;
    words.next()?.parse::<Kind>().ok()?;
    words.find(|word| !is_digits(word) && names.id_of(word).is_none())
}

fn is_digits(word: &str) -> bool {
    word.bytes().all(|byte| byte.is_ascii_digit())
}

/// The ids that a ticket gives as numbers, or in its bytes.
fn ids_of(words: &str) -> Vec<u8> {
    match words.parse::<Ticket>() {
        Ok(ticket) => ticket.bytes()[2..].to_vec(),
        Err(_) => {
            let numbers = words.split_whitespace().filter(|word| is_digits(word));
            numbers.filter_map(|word| word.parse().ok()).collect()
        }
    }
}
