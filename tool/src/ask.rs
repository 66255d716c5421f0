//! `apply --ask`: what each ticket would do is shown first, and it is run if that is agreed to.

use crate::apply::{say_refused, Ran, INDENT};
use crate::args;
use crate::explain::Explainer;
use crate::facts::Lines;
use crate::failure::{reason, Failure};
use crate::sender::Sender;
use crate::text::count;
use crate::tickets::{Given, Source, Understood};
use clap::ArgMatches;
use rustix::termios::isatty;
use std::io::{self, BufRead, Write};
use std::path::Path;
use vimelosa_host::{Change, Graph, Names, Preview, Refusal, Ticket};

const QUESTION: &str = "Agree? [y/N] ";

/// With more facts than this between them, a ticket and its question may not be on the screen together.
const MOST_AT_ONCE: usize = 16;

/// Who is asked: an editor at the terminal about each ticket, or with `--yes` nobody.
pub struct Asking {
    is_yes: bool,
    /// The editor ended the input: what follows is not agreed.
    is_ended: bool,
    /// With `--yes`, what was shown. It is printed when the files are saved, as without asking.
    pub kept: String,
}

/// What became of a ticket.
enum Outcome {
    Agreed,
    NotAgreed,
    Refused(Refusal),
}

impl Asking {
    /// By the words of the command: nothing without `--ask`, and a failure if an editor cannot be asked.
    pub fn of(matches: &ArgMatches) -> Result<Option<Asking>, Failure> {
        let is_yes = matches.get_flag("yes");
        if !matches.get_flag("ask") {
            return Ok(None);
        }
        if !is_yes {
            expect_terminal(args::optional_path(matches, "file"))?;
        }
        Ok(Some(Asking { is_yes, is_ended: false, kept: String::new() }))
    }

    /// Shows the tickets and runs those that are agreed to, each on what the ones before it left; with all or
    /// nothing, up to the first that is refused or not agreed.
    pub fn run_list(
        &mut self,
        source: &Source,
        understood: &Understood,
        before: &Graph,
        is_all_or_nothing: bool,
    ) -> Result<Ran, Failure> {
        let mut explainer = Explainer::new(Sender::Anyone, source, understood, before.clone());
        let mut ran = Ran { graph: before.clone(), refused: Vec::new(), not_agreed: 0, is_dropped: false };
        for (place, (given, &ticket)) in source.given.iter().zip(&understood.tickets).enumerate() {
            match self.run_ticket(given, ticket, &understood.names, &mut ran.graph)? {
                Outcome::Agreed => continue,
                Outcome::NotAgreed => {
                    explainer.leave_out(place, &ran.graph);
                    ran.not_agreed += 1;
                }
                Outcome::Refused(refusal) => {
                    self.show(&say_refused(given, refusal, explainer.explain(place, refusal)))?;
                    ran.refused.push((place, refusal));
                }
            }
            if is_all_or_nothing {
                return Ok(Ran { graph: before.clone(), is_dropped: true, ..ran });
            }
        }
        Ok(ran)
    }

    /// Shows a ticket that is not refused, and runs it if that is agreed to.
    fn run_ticket(
        &mut self,
        given: &Given,
        ticket: Ticket,
        names: &Names,
        graph: &mut Graph,
    ) -> Result<Outcome, Failure> {
        if self.is_ended {
            return Ok(Outcome::NotAgreed);
        }
        let preview = match graph.preview(ticket) {
            Ok(preview) => preview,
            Err(refusal) => return Ok(Outcome::Refused(refusal)),
        };
        self.show(&say_preview(given, &preview, names))?;
        if !self.ask_editor()? {
            return Ok(Outcome::NotAgreed);
        }
        Ok(preview.commit(graph).map_or_else(Outcome::Refused, |_| Outcome::Agreed))
    }

    /// Asks whether what was shown is agreed to. That it is not is told, since an answer may be mistyped.
    fn ask_editor(&mut self) -> Result<bool, Failure> {
        if self.is_yes {
            return Ok(true);
        }
        self.show(QUESTION)?;
        let answer = read_answer()?;
        if !answer.ends_with('\n') {
            self.show("\n")?;
        }
        if ["y", "yes"].contains(&answer.trim().to_lowercase().as_str()) {
            return Ok(true);
        }
        self.is_ended = answer.is_empty();
        let left_out = if self.is_ended { "this ticket and any after it are" } else { "this ticket is" };
        self.show(&format!("{INDENT}Not agreed: {left_out} left out.\n"))?;
        Ok(false)
    }

    /// Shows a text at once, or keeps it if nobody is asked.
    fn show(&mut self, text: &str) -> Result<(), Failure> {
        if self.is_yes {
            self.kept += text;
            return Ok(());
        }
        let mut stdout = io::stdout().lock();
        stdout.write_all(text.as_bytes()).and_then(|()| stdout.flush()).map_err(|error| {
            let what = format!("cannot show what is asked ({}), nothing is written", reason(&error));
            Failure::new(what, "standard output", "run the command again")
        })
    }
}

/// A failure unless an editor can be asked and sees what about.
fn expect_terminal(file: Option<&Path>) -> Result<(), Failure> {
    let (what, place, instead) = if file == Some(Path::new("-")) {
        ("answers cannot come from where the tickets do", "standard input", "name a file")
    } else if !isatty(io::stdin()) {
        ("no terminal, so nobody can be asked", "standard input", "run the command at a terminal")
    } else if !isatty(io::stdout()) {
        ("no terminal, so nobody sees what is asked", "standard output", "run the command at a terminal")
    } else {
        return Ok(());
    };
    Err(Failure::new(what, place, format!("{instead}, or agree to every ticket with --yes")))
}

/// The line that answers a question; nothing at the end of the input.
fn read_answer() -> Result<String, Failure> {
    let mut line = Vec::new();
    match io::stdin().lock().read_until(b'\n', &mut line) {
        Ok(_) => Ok(String::from_utf8_lossy(&line).into_owned()),
        Err(error) => {
            let what = format!("cannot read the answer ({}), nothing is written", reason(&error));
            Err(Failure::new(what, "standard input", "run the command again"))
        }
    }
}

/// A ticket in words, what it would do, and every fact that would go or come, with names. After a long list
/// the first line stands once more.
fn say_preview(given: &Given, preview: &Preview, names: &Names) -> String {
    let head =
        format!("{}{}: {}\n", given.label(), names.show(preview.ticket()), say_change(preview.change()));
    let mut lines = Lines { names: Some(names), text: head.clone() };
    preview.removed().iter().for_each(|&fact| lines.put("- ", fact));
    preview.added().iter().for_each(|&fact| lines.put("+ ", fact));
    let is_long = preview.removed().len() + preview.added().len() > MOST_AT_ONCE;
    lines.text + if is_long { &head } else { "" }
}

/// An insertion removes nothing, and a deletion adds nothing.
fn say_change(change: Change) -> String {
    match change {
        Change { added: 0, removed: 0 } => "would change nothing".to_owned(),
        Change { added, removed: 0 } => format!("would add {}", count(added.into(), "fact")),
        Change { removed, .. } => format!("would remove {}", count(removed.into(), "fact")),
    }
}

#[cfg(test)]
mod tests {
    use super::*;
    use crate::tickets::understand;

    /// What no list comes to by itself: the graph changes between the showing and the running.
    #[test]
    fn out_of_date() {
        let matches = args::command().get_matches_from("vimelosa apply a.img insert class 2".split(' '));
        let source = Source::read(matches.subcommand().unwrap().1).unwrap();
        let mut graph = Graph::fresh();
        let understood = understand(&source, &graph, &Names::new()).unwrap();
        let preview = graph.preview(understood.tickets[0]).unwrap();
        preview.commit(&mut graph).unwrap();
        let refusal = preview.commit(&mut graph).unwrap_err();
        let mut explainer = Explainer::new(Sender::Anyone, &source, &understood, graph);
        let said = say_refused(&source.given[0], refusal, explainer.explain(0, refusal));
        let expected = "insert class 2: refusal 18: What was shown is not what the ticket would do now.\n  \
                        Run the command again to see what it would do now.\n";
        assert_eq!(said, expected);
    }
}
