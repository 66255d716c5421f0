//! `draw`: the classes and properties as a picture, laid out by Graphviz.

use crate::args;
use crate::dot::drawing;
use crate::failure::{reason, Answer, Failure};
use crate::files::{refuse_sources, Image, NamesFile};
use crate::replace::Replacement;
use clap::ArgMatches;
use std::io::{self, ErrorKind, Write};
use std::process::{Command, Output, Stdio};
use std::thread;

pub fn run(matches: &ArgMatches) -> Result<Answer, Failure> {
    let path = args::path_of(matches, "IMAGE");
    let graph = Image::read(path)?.graph;
    let names = NamesFile::read(matches, path)?;
    let text = drawing(&graph, &names.names);
    let drawn = if matches.get_flag("dot") { text.into_bytes() } else { lay_out(text)? };
    match args::optional_path(matches, "output") {
        None => Ok(Answer::of(drawn)),
        Some(output) => {
            refuse_sources("drawing", output, &[path, &names.path])?;
            Replacement::write(output, &drawn)?.put_in_place()?;
            Ok(Answer::of(""))
        }
    }
}

/// The SVG that `dot` makes of a drawing.
fn lay_out(text: String) -> Result<Vec<u8>, Failure> {
    let output = call_dot(text).map_err(|error| {
        let what = match error.kind() {
            ErrorKind::NotFound => "no program dot is found".to_owned(),
            _ => format!("dot cannot be run ({})", reason(&error)),
        };
        Failure::new(what, "PATH", "install graphviz, or print the DOT text with --dot")
    })?;
    if !output.status.success() {
        let said = String::from_utf8_lossy(&output.stderr);
        let what = format!("dot failed ({})", said.lines().next().unwrap_or("it does not say why"));
        return Err(Failure::new(what, "the drawing", "print the DOT text with --dot and look at it"));
    }
    Ok(output.stdout)
}

/// Hands the text to `dot` while its output is read, so that neither waits for the other.
fn call_dot(text: String) -> io::Result<Output> {
    let pipes = || Stdio::piped();
    let mut dot = Command::new("dot").arg("-Tsvg").stdin(pipes()).stdout(pipes()).stderr(pipes()).spawn()?;
    let mut input = dot.stdin.take().expect("the input is a pipe");
    let writer = thread::spawn(move || input.write_all(text.as_bytes()));
    let output = dot.wait_with_output()?;
    // If dot ended before it read all, its status and words tell more than the broken pipe.
    let _ = writer.join();
    Ok(output)
}
