//! `diff`: the facts that only one of two images has. Facts are compared by their ids.

use crate::args;
use crate::facts::Lines;
use crate::failure::{Answer, Failure, DONE, REFUSED};
use crate::files::{Image, NamesFile};
use clap::ArgMatches;
use vimelosa_host::Names;

pub fn run(matches: &ArgMatches) -> Result<Answer, Failure> {
    let [a, b] = ["A", "B"].map(|name| args::path_of(matches, name));
    let diff = Image::read(a)?.graph.diff(&Image::read(b)?.graph);
    let names_a = NamesFile::read_unless_ids(matches, a)?;
    let names_b = NamesFile::read_unless_ids(matches, b)?;
    let both = names_a.zip(names_b).map(|(a, b)| (completed(&a, &b), completed(&b, &a)));

    let mut lines = Lines { names: both.as_ref().map(|both| &both.0), text: String::new() };
    diff.only_here.iter().for_each(|&fact| lines.put("- ", fact));
    lines.names = both.as_ref().map(|both| &both.1);
    diff.only_there.iter().for_each(|&fact| lines.put("+ ", fact));
    let status = if matches.get_flag("exit-code") && !diff.is_empty() { REFUSED } else { DONE };
    Ok(Answer::of(lines.text).with_status(status))
}

/// The names, and those of the other for ids that have none; so a copy without a names file is shown with
/// names too.
fn completed(names: &Names, other: &Names) -> Names {
    let mut completed = names.clone();
    for (id, name) in other.iter() {
        // An id that has a name keeps it, and so does a name that has an id.
        let _ = completed.insert(id, name);
    }
    completed
}
