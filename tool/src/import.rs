//! `import`: an image with the graph of a text of N-Triples.

use crate::args;
use crate::failure::{Answer, Failure, REFUSED};
use crate::files::{input_name, make_image, read_input, refuse_existing};
use crate::text::grouped;
use clap::ArgMatches;
use std::path::Path;
use vimelosa_host::{Graph, Refusal};

/// A longer text is not read: a graph's own text has at most 315,392 bytes, so a longer one only repeats
/// lines.
const MOST_BYTES: usize = 1 << 24;

pub fn run(matches: &ArgMatches) -> Result<Answer, Failure> {
    let [source, path] = ["TEXT", "IMAGE"].map(|name| args::path_of(matches, name));
    refuse_existing(path)?;
    let text = read_input("text", source, MOST_BYTES as u64 + 1)?;
    if text.len() > MOST_BYTES {
        let what = format!("the text has more than {} bytes", grouped(MOST_BYTES));
        return Err(Failure::new(what, input_name(source), "give each line once"));
    }
    let graph = Graph::from_triples(&text).map_err(|refusal| told(refusal, &text, source))?;
    make_image(path, &graph)?;
    Ok(Answer::of(""))
}

/// The refusal of a text; for a line outside the profile with its number.
fn told(refusal: Refusal, text: &[u8], source: &Path) -> Failure {
    let name = input_name(source);
    let (place, advice) = match refusal {
        Refusal::OutsideProfile => {
            (format!("line {} of {name}", first_outside(text)), "see TRIPLES in the man page")
        }
        Refusal::TooMany => (name, "leave some out, an image has at most 2,048"),
        _ => (name, "give the text of a whole graph, as export prints it"),
    };
    Failure::new(refusal, place, advice).with_status(REFUSED)
}

/// The number of the first line because of which a text is outside the profile. The text up to a line is
/// outside from that line on and not before, so it is searched by halves.
fn first_outside(text: &[u8]) -> usize {
    let mut ends: Vec<usize> = (1..=text.len()).filter(|&end| text[end - 1] == b'\n').collect();
    ends.push(text.len());
    let is_inside = |end: &usize| Graph::from_triples(&text[..*end]) != Err(Refusal::OutsideProfile);
    ends.partition_point(is_inside) + 1
}
