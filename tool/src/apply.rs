//! `apply`: tickets run on the graph of an image, and the files saved.

use crate::args;
use crate::ask::Asking;
use crate::explain::Explainer;
use crate::failure::{Answer, Failure, DONE, REFUSED};
use crate::files::{Image, NamesFile};
use crate::progress::Progress;
use crate::replace::Replacement;
use crate::sender::Sender;
use crate::stat::used_ids;
use crate::text::{count, filled, grouped, named, WIDTH};
use crate::tickets::{understand, Given, Source, Understood};
use clap::ArgMatches;
use vimelosa_host::{Graph, Names, Refusal, Ticket};

/// Before a line that goes on with the one above.
pub const INDENT: &str = "  ";

pub fn run(matches: &ArgMatches) -> Result<Answer, Failure> {
    let path = args::path_of(matches, "IMAGE");
    let mut asking = Asking::of(matches)?;
    let image = Image::read(path)?;
    let names = NamesFile::read_or_begin(matches, path)?;
    let source = Source::read(matches)?;
    let understood = understand(&source, &image.graph, &names.names)?;

    let sender = Sender::of(matches);
    let is_all_or_nothing = matches.get_flag("all-or-nothing");
    let ran = match &mut asking {
        Some(asking) => asking.run_list(&source, &understood, &image.graph, is_all_or_nothing)?,
        None => run_list(sender, &image.graph, &understood.tickets, is_all_or_nothing),
    };
    let kept = kept_ids(&understood, &ran.graph);
    save(&image, &names, &understood.names, &kept, &ran.graph)?;
    let status = if ran.refused.is_empty() && ran.not_agreed == 0 { DONE } else { REFUSED };
    let said = match asking {
        // Refused tickets were shown among the others.
        Some(asking) => asking.kept,
        None => {
            let explainer = Explainer::new(sender, &source, &understood, image.graph.clone());
            report_refused(&source, &ran, explainer)
        }
    };
    let text = [said, report_sum(&source, &image.graph, &ran), report_names(&understood.names, &kept)];
    Ok(Answer::of(text.concat()).with_status(status))
}

/// What a list left, and its refused tickets by their places.
pub struct Ran {
    pub graph: Graph,
    pub refused: Vec<(usize, Refusal)>,
    /// How many were left out, since they were not agreed.
    pub not_agreed: usize,
    /// A ticket that was refused or not agreed dropped all of them.
    pub is_dropped: bool,
}

/// Runs the tickets on a copy of the graph; with all or nothing, up to the first that is refused.
fn run_list(sender: Sender, before: &Graph, tickets: &[Ticket], is_all_or_nothing: bool) -> Ran {
    let progress = Progress::of(tickets.len());
    let mut graph = before.clone();
    let mut refused = Vec::new();
    let mut done = 0;
    for piece in tickets.chunks(progress.piece()) {
        let of_piece = run_piece(sender, &mut graph, piece, is_all_or_nothing);
        refused.extend(of_piece.into_iter().map(|(place, refusal)| (done + place, refusal)));
        if is_all_or_nothing && !refused.is_empty() {
            progress.end();
            return Ran { graph: before.clone(), refused, not_agreed: 0, is_dropped: true };
        }
        done += piece.len();
        progress.show(done);
    }
    progress.end();
    Ran { graph, refused, not_agreed: 0, is_dropped: false }
}

/// Runs a piece of the list; answers the places in it that were refused.
fn run_piece(
    sender: Sender,
    graph: &mut Graph,
    piece: &[Ticket],
    is_all_or_nothing: bool,
) -> Vec<(usize, Refusal)> {
    if is_all_or_nothing {
        let refused = sender.apply_all_or_none(graph, piece).err();
        return refused.map(|refused| (refused.place, refused.refusal)).into_iter().collect();
    }
    let answers = sender.apply_all(graph, piece).into_iter().enumerate();
    answers.filter_map(|(place, answer)| answer.err().map(|refusal| (place, refusal))).collect()
}

/// What is said of all refused tickets.
fn report_refused(source: &Source, ran: &Ran, mut explainer: Explainer) -> String {
    let mut text = String::new();
    for &(place, refusal) in &ran.refused {
        text += &say_refused(&source.given[place], refusal, explainer.explain(place, refusal));
    }
    text
}

/// A line for a refused ticket, and another where there is more to say of it.
pub fn say_refused(given: &Given, refusal: Refusal, more: Option<String>) -> String {
    let line = format!("{}{}: {refusal}\n", given.label(), given.words);
    line + &more.map(|more| format!("{INDENT}{more}\n")).unwrap_or_default()
}

/// How many tickets were accepted and refused, and what they changed.
fn report_sum(source: &Source, before: &Graph, ran: &Ran) -> String {
    let all = source.given.len();
    let diff = before.diff(&ran.graph);
    let (added, removed) = (count(diff.only_there.len(), "fact"), grouped(diff.only_here.len()));
    format!("{}: {}; {added} added, {removed} removed\n", count(all, "ticket"), sum_of(all, ran))
}

/// The sum of so many tickets; how many were not agreed is said only of some.
fn sum_of(all: usize, ran: &Ran) -> String {
    let (refused, not_agreed) = (ran.refused.len(), ran.not_agreed);
    let accepted = grouped(all - refused - not_agreed);
    match (ran.is_dropped, not_agreed) {
        (true, 0) => "nothing applied, since one was refused".to_owned(),
        (true, _) => "nothing applied, since one was not agreed".to_owned(),
        (false, 0) => format!("{accepted} accepted, {} refused", grouped(refused)),
        (false, _) => {
            format!("{accepted} accepted, {} refused, {} not agreed", grouped(refused), grouped(not_agreed))
        }
    }
}

/// The new names, so that a misspelt one is seen; nothing if there is none.
fn report_names(names: &Names, ids: &[u8]) -> String {
    if ids.is_empty() {
        return String::new();
    }
    let head = format!("{}: ", count(ids.len(), "new name"));
    let lines = filled(names, ids, WIDTH - head.len(), WIDTH - INDENT.len());
    head + &lines.join(&format!("\n{INDENT}")) + "\n"
}

/// Saves the new names and the image, if the graph changed. Both new files stand before either is put in
/// place: a full disk leaves both old ones. The names go first, since a name without a use harms nothing.
fn save(image: &Image, old: &NamesFile, names: &Names, ids: &[u8], graph: &Graph) -> Result<(), Failure> {
    if *graph == image.graph {
        return Ok(());
    }
    let new_names = match ids {
        [] => None,
        _ => Some(Replacement::write(&old.path, with_lines(old, names, ids).as_bytes())?),
    };
    let new_image = Replacement::write(&image.path, graph.image())?;
    // Two calls at once would both find the files unchanged.
    let _lock = new_image.lock()?;
    new_image.expect_unchanged(Some(&image.bytes))?;
    if let Some(new_names) = new_names {
        new_names.expect_unchanged(old.text.as_deref().map(str::as_bytes))?;
        new_names.put_in_place()?;
    }
    new_image.put_in_place()
}

/// The ids of the new names that stand in the graph that the list left.
fn kept_ids(understood: &Understood, graph: &Graph) -> Vec<u8> {
    let used = used_ids(graph);
    understood.new_ids.iter().copied().filter(|id| used.contains(id)).collect()
}

/// The names file with a line more for each new name. The lines that were there stay as they are.
fn with_lines(old: &NamesFile, names: &Names, ids: &[u8]) -> String {
    let mut text = old.text.clone().unwrap_or_default();
    if !text.is_empty() && !text.ends_with('\n') {
        text.push('\n');
    }
    for &id in ids {
        text += &format!("{id}\t{}\n", named(names, id));
    }
    text
}
