//! The benchmark: the proved implementation beside two rivals, SQLite, serdi and rdflib, in one run.
//! `--quick` measures little, `--write` writes the report to docs/, `--program NAME` is a rival's program
//! one, `--check NAME` its check of one table, `--lists NAME` a candidate's list call on a long list.

// `std::hint::black_box` is of Rust 1.66; the tests do without.
#![allow(clippy::incompatible_msrv)]

mod candidates;
mod checks;
mod clock;
mod exclusive;
mod growth;
mod host_calls;
mod list_calls;
mod lists;
mod paper;
mod plant;
mod previews;
mod programs;
mod report;
mod rivals;
mod sequence;
mod settings;
mod sqlite;
mod subjects;
mod tables;
mod texts;
mod triples;
mod triples_programs;
mod triples_report;

use settings::Settings;
use std::path::Path;
use std::{env, fs, io};

fn main() -> io::Result<()> {
    let words: Vec<String> = env::args().skip(1).collect();
    if let [first, name] = words.as_slice() {
        match first.as_str() {
            "--program" => return candidates::run_program(name),
            "--check" => return candidates::run_checks(name),
            "--lists" => return candidates::run_lists(name),
            _ => {}
        }
    }
    let settings = Settings::of(&words);
    let report = report::measure(&settings);
    println!("{}", report.text);
    if settings.writes {
        let docs = Path::new(env!("CARGO_MANIFEST_DIR")).join("../docs");
        fs::write(docs.join("BENCHMARK.md"), &report.text)?;
        fs::write(docs.join("growth.svg"), &report.picture)?;
    }
    Ok(())
}
