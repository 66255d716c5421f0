//! Program one on long lists, and the list call on the same, as processes that read a file.

use crate::candidates::{list_load, program_one, NAMES};
use crate::clock::{interleaved, processor_time, shares, Readings, Run};
use crate::rivals::sorted::Sorted;
use crate::rivals::{Rival, TICKET_LENGTH};
use crate::settings::Settings;
use crate::tables::Line;
use std::fs::{self, File};
use std::path::{Path, PathBuf};
use std::process::{Command, Stdio};

/// What was measured on one list.
pub struct Measured {
    pub tickets: usize,
    pub accepted: usize,
    /// Nanoseconds a ticket, or of the whole process where there is none.
    pub line: Line,
    /// The same of the proved list call, 1,000 tickets to a call, beside the proved program one.
    pub list_calls: Line,
}

/// Where the lists stand while they are run.
pub fn file_of(name: &str) -> PathBuf {
    Path::new(env!("CARGO_TARGET_TMPDIR")).join(name.replace(' ', "-"))
}

/// All programs print the same on each list; then they are timed, their output thrown away, each once on each
/// list within every repetition.
pub fn measure(settings: &Settings, lists: &[(&str, Vec<u8>)]) -> Vec<Measured> {
    let paths: Vec<PathBuf> = lists.iter().map(|(name, list)| written(name, list)).collect();
    let accepted: Vec<usize> = paths.iter().map(|path| count_accepted(path)).collect();
    let each = paths.iter().flat_map(|path| runs_on(path));
    let readings = interleaved(settings.processes, &mut each.collect::<Vec<Run>>());
    let own = readings.chunks(readings.len() / lists.len()).zip(accepted);
    lists
        .iter()
        .zip(own)
        .map(|((name, list), (own, accepted))| Measured::of(name, list, accepted, own))
        .collect()
}

impl Measured {
    fn of(name: &str, list: &[u8], accepted: usize, readings: &[Readings]) -> Measured {
        let tickets = list.chunks(TICKET_LENGTH).len();
        let shares = shares(readings, tickets.max(1));
        let (programs, list_calls) = shares.split_at(NAMES.len());
        let name = name.to_string();
        Measured {
            tickets,
            accepted,
            line: Line::of(name.clone(), programs),
            list_calls: Line::of(name, &[list_calls[0].clone(), programs[0].clone()]),
        }
    }
}

/// Writes a list to its file.
fn written(name: &str, list: &[u8]) -> PathBuf {
    let path = file_of(name);
    fs::write(&path, list).expect("the target folder takes a file");
    path
}

/// How many tickets of a list are accepted, if all programs print the same, and all list calls give the same
/// answers and leave the same image.
fn count_accepted(path: &Path) -> usize {
    let printed = same_output(program_one, path);
    let printed = String::from_utf8(printed).expect("program one prints text");
    let answers: Vec<u8> = printed.lines().filter_map(answer_of).collect();
    let by_lists = same_output(list_load, path);
    let (list_answers, image) = by_lists.split_at(answers.len());
    assert_eq!(list_answers, answers, "the answers on {} differ", path.display());
    let table = Sorted::read(image).expect("the image is good");
    assert_eq!(printed.lines().last(), Some(table.count_facts().to_string().as_str()));
    answers.iter().filter(|number| **number == 0).count()
}

/// The answer in the line of a ticket; the last line, with the count of facts, has none.
fn answer_of(line: &str) -> Option<u8> {
    let (answer, _) = line.split_once(' ')?;
    Some(answer.parse().expect("an answer is a number"))
}

/// What a program writes, if it is the same for all candidates.
fn same_output(program: fn(&str) -> Command, path: &Path) -> Vec<u8> {
    let [first, others @ ..] = NAMES.map(|candidate| output_of(program(candidate), path));
    assert!(others.iter().all(|other| *other == first), "the outputs on {} differ", path.display());
    first
}

fn output_of(mut command: Command, path: &Path) -> Vec<u8> {
    let input = File::open(path).expect("the list is there");
    let output = command.stdin(input).stderr(Stdio::inherit()).output().expect("the program starts");
    assert!(output.status.success(), "{command:?}: {:?}", output.status);
    output.stdout
}

/// What is timed on each list: program one of every candidate, then the proved list calls.
fn runs_on(path: &Path) -> Vec<Run<'_>> {
    let programs = NAMES.into_iter().map(|candidate| timed(program_one, candidate, path));
    programs.chain([timed(list_load, NAMES[0], path)]).collect()
}

fn timed<'a>(program: fn(&str) -> Command, candidate: &'a str, path: &'a Path) -> Run<'a> {
    Box::new(move || {
        let input = File::open(path).expect("the list is there");
        let mut command = program(candidate);
        command.stdin(input).stdout(Stdio::null());
        processor_time(command)
    })
}
