//! What is measured: the proved implementation and the two rivals, each by its calls and as a program.

use crate::rivals::bit_rows::BitRows;
use crate::rivals::sorted::Sorted;
use crate::rivals::triples::{read_triples, write_triples};
use crate::rivals::{host_call, list_call, program, Rival};
use crate::{checks, list_calls};
use std::env;
use std::io::{stdin, stdout, Result};
use std::path::{Path, PathBuf};
use std::process::Command;
use vimelosa_host::{call_list_raw, call_raw, read_triples_raw, write_triples_raw};

/// Image, ticket, output.
pub type HostCall = fn(&[u8], &[u8], &mut [u8]) -> u64;

/// Image, tickets, answers, output.
pub type ListCall = fn(&[u8], &[u8], &mut [u8], &mut [u8]) -> u64;

/// Image or text, output.
pub type TextCall = fn(&[u8], &mut [u8]) -> u64;

/// The names, in the order of every column.
pub const NAMES: [&str; 3] = ["proved", "sorted", "bit rows"];

pub const HOST_CALLS: [HostCall; 3] = [call_raw, host_call::<Sorted>, host_call::<BitRows>];

pub const LIST_CALLS: [ListCall; 3] = [call_list_raw, list_call::<Sorted>, list_call::<BitRows>];

pub const WRITE_CALLS: [TextCall; 3] = [write_triples_raw, write_triples::<Sorted>, write_triples::<BitRows>];

pub const READ_CALLS: [TextCall; 3] = [read_triples_raw, read_triples::<Sorted>, read_triples::<BitRows>];

/// Program one of a candidate, to be run as a process.
pub fn program_one(name: &str) -> Command {
    process(name, "--program", "apply_tickets", "VIMELOSA_APPLY_TICKETS")
}

/// The program of a candidate that checks the table of an image again and again.
pub fn check_load(name: &str) -> Command {
    process(name, "--check", "check_load", "VIMELOSA_CHECK_LOAD")
}

/// The program that runs a long list by a candidate's list calls.
pub fn list_load(name: &str) -> Command {
    this_executable("--lists", name)
}

/// The proved program that writes the text of an image.
pub fn write_program() -> Command {
    proved("write_triples", "VIMELOSA_WRITE_TRIPLES")
}

/// The proved program that writes the image of a text.
pub fn read_program() -> Command {
    proved("read_triples", "VIMELOSA_READ_TRIPLES")
}

/// A rival's program is this executable.
fn process(name: &str, word: &str, program: &str, variable: &str) -> Command {
    if name == NAMES[0] {
        return proved(program, variable);
    }
    this_executable(word, name)
}

/// A proved program is in target/bin or where a variable says.
fn proved(program: &str, variable: &str) -> Command {
    let built = Path::new(env!("CARGO_MANIFEST_DIR")).join("../target/bin").join(program);
    Command::new(env::var_os(variable).map_or(built, PathBuf::from))
}

fn this_executable(word: &str, name: &str) -> Command {
    let mut command = Command::new(env::current_exe().expect("the benchmark has a path"));
    command.args([word, name]);
    command
}

/// Runs a rival's program one in this process.
pub fn run_program(name: &str) -> Result<()> {
    let (input, output) = (stdin().lock(), stdout().lock());
    if name == NAMES[1] {
        program::run::<Sorted>(input, output)
    } else {
        program::run::<BitRows>(input, output)
    }
}

/// Runs a rival's checks in this process.
pub fn run_checks(name: &str) -> Result<()> {
    let check = if name == NAMES[1] { Sorted::check } else { BitRows::check };
    checks::run(check, stdin().lock(), stdout().lock())
}

/// Runs a candidate's list calls in this process.
pub fn run_lists(name: &str) -> Result<()> {
    let place = NAMES.iter().position(|other| *other == name).expect("a candidate's name");
    list_calls::run(LIST_CALLS[place], stdin().lock(), stdout().lock())
}
