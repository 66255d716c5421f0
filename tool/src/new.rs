//! `new`: an image with a fresh graph.

use crate::args;
use crate::failure::{Answer, Failure};
use crate::files::{make_image, refuse_existing};
use clap::ArgMatches;
use vimelosa_host::Graph;

pub fn run(matches: &ArgMatches) -> Result<Answer, Failure> {
    let path = args::path_of(matches, "IMAGE");
    refuse_existing(path)?;
    make_image(path, &Graph::fresh())?;
    Ok(Answer::of(""))
}
