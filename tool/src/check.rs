//! `check`: whether an image is well formed and consistent.

use crate::args;
use crate::failure::{Answer, Failure, REFUSED};
use crate::files::read_image;
use crate::text::count;
use clap::ArgMatches;
use vimelosa_host::{Graph, Refusal};

pub fn run(matches: &ArgMatches) -> Result<Answer, Failure> {
    let image = read_image(args::path_of(matches, "IMAGE"))?;
    match Graph::load(&image) {
        Ok(graph) => {
            let facts = count(graph.count_facts(), "fact");
            Ok(Answer::of(format!("0: the image is well formed and consistent ({facts})\n")))
        }
        Err(refusal) => Ok(Answer::of(told(refusal)).with_status(REFUSED)),
    }
}

/// The refusal's number and sentence; for a broken rule also the rule.
fn told(refusal: Refusal) -> String {
    let answer = format!("{}: {}\n", refusal.number(), refusal.sentence());
    match refusal {
        Refusal::Inconsistent { rule } => format!("{answer}{rule}: {}\n", rule.sentence()),
        _ => answer,
    }
}
