//! `vimelosa`: an equipment graph on the command line. `args` has the commands and their words; each command
//! has a file of its own and ends with an answer or a failure; this file prints it.

#![deny(unsafe_code)]

mod apply;
mod args;
mod ask;
mod check;
mod convert;
mod diff;
mod dot;
mod draw;
mod explain;
mod export;
mod facts;
mod failure;
mod files;
mod hierarchy;
mod holders;
mod import;
mod man;
mod nearest;
mod new;
mod progress;
mod replace;
mod sender;
mod show;
mod stat;
mod text;
mod tickets;
mod unknown;

use failure::{reason, Answer, Failure};
use std::io::{self, ErrorKind, Write};
use std::process::ExitCode;

fn main() -> ExitCode {
    match run() {
        Ok(status) => ExitCode::from(status),
        Err(failure) => {
            say(&failure.to_string());
            ExitCode::from(failure.status)
        }
    }
}

fn run() -> Result<u8, Failure> {
    let answer = answer()?;
    print(&answer.output)?;
    if let Some(note) = answer.note {
        say(&note);
    }
    Ok(answer.status)
}

fn answer() -> Result<Answer, Failure> {
    let matches = match args::command().try_get_matches() {
        Ok(matches) => matches,
        Err(error) => return args::explain(&error),
    };
    let (name, matches) = matches.subcommand().expect("clap asks for a command");
    match name {
        "new" => new::run(matches),
        "apply" => apply::run(matches),
        "show" => show::run(matches),
        "facts" => facts::run(matches),
        "check" => check::run(matches),
        "diff" => diff::run(matches),
        "draw" => draw::run(matches),
        "export" => export::run(matches),
        "import" => import::run(matches),
        "tickets" => convert::run(matches),
        "stat" => stat::run(matches),
        "man" => Ok(man::run()),
        other => unreachable!("clap knows no command {other}"),
    }
}

/// Writes a line to standard error, all at once: other programs may write there too. Where it is closed the
/// status alone tells.
fn say(line: &str) {
    let _ = io::stderr().write_all(format!("{line}\n").as_bytes());
}

/// Writes to standard output. A reader who has seen enough and closed the pipe is no failure.
fn print(output: &[u8]) -> Result<(), Failure> {
    let mut stdout = io::stdout().lock();
    match stdout.write_all(output).and_then(|()| stdout.flush()) {
        Err(error) if error.kind() != ErrorKind::BrokenPipe => {
            let advice = "make room there or write elsewhere; files that the command saves are saved already";
            Err(Failure::new(format!("cannot write ({})", reason(&error)), "standard output", advice))
        }
        _ => Ok(()),
    }
}
