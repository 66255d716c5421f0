//! The check of a table, as processes that check the table of an image again and again.

use crate::candidates::{check_load, NAMES};
use crate::clock::{interleaved, processor_time, shares, Run};
use crate::programs::file_of;
use crate::rivals::fact::MOST_WORDS;
use crate::rivals::sorted::Sorted;
use crate::rivals::Rival;
use crate::settings::Settings;
use crate::subjects::Subject;
use crate::tables::Line;
use std::fs::{self, File};
use std::hint::black_box;
use std::io::{Read, Result, Write};
use std::path::{Path, PathBuf};
use std::process::Stdio;

/// So often a process checks its table; the proved program has the same number.
const ROUNDS: usize = 5000;

/// A graph whose table is checked.
pub struct Checked {
    pub name: String,
    pub facts: usize,
    pub image: Vec<u8>,
}

impl Checked {
    pub fn of_subject(subject: &Subject) -> Checked {
        Checked { name: subject.name.to_string(), facts: subject.facts, image: subject.image().to_vec() }
    }
}

/// A line for each graph.
pub fn measure(settings: &Settings, graphs: &[Checked]) -> Vec<Line> {
    let paths: Vec<PathBuf> = graphs.iter().map(written).collect();
    paths.iter().for_each(|path| compare(path));
    let each = paths.iter().flat_map(|path| NAMES.map(|candidate| timed(candidate, path)));
    let readings = interleaved(settings.processes, &mut each.collect::<Vec<Run>>());
    let name = |graph: &Checked| format!("{}, {} facts", graph.name, graph.facts);
    graphs
        .iter()
        .zip(shares(&readings, ROUNDS).chunks(NAMES.len()))
        .map(|(graph, own)| Line::of(name(graph), own))
        .collect()
}

/// A rival's program: the image comes from standard input, and the number of checks that accepted its table
/// is printed.
pub fn run(check: fn(&[u32]) -> u8, mut input: impl Read, mut output: impl Write) -> Result<()> {
    let mut image = Vec::new();
    input.read_to_end(&mut image)?;
    let mut words = Sorted::read(&image).expect("the image is good").words().to_vec();
    words.resize(MOST_WORDS, 0);
    let accepted = (0..ROUNDS).filter(|_| check(black_box(&words)) == 0).count();
    writeln!(output, "{accepted}")
}

fn written(graph: &Checked) -> PathBuf {
    let path = file_of(&format!("{} {}.image", graph.name, graph.facts));
    fs::write(&path, &graph.image).expect("the target folder takes a file");
    path
}

/// Every program accepts the table each time.
fn compare(path: &Path) {
    for candidate in NAMES {
        let input = File::open(path).expect("the image is there");
        let output = check_load(candidate).stdin(input).output().expect("the program starts");
        assert_eq!(output.stdout, format!("{ROUNDS}\n").into_bytes(), "{candidate} on {}", path.display());
    }
}

fn timed<'a>(candidate: &'a str, path: &'a Path) -> Run<'a> {
    Box::new(move || {
        let mut command = check_load(candidate);
        command.stdin(File::open(path).expect("the image is there")).stdout(Stdio::null());
        processor_time(command)
    })
}
