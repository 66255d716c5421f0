//! Texts of N-Triples as processes that read a file: the proved programs, and beside them serd's command
//! `serdi` and rdflib, where these are installed.

use crate::candidates::{read_program, write_program};
use crate::clock::{interleaved, median, processor_time, Run};
use crate::programs::file_of;
use crate::settings::Settings;
use crate::texts::Text;
use std::fs::{self, File};
use std::path::{Path, PathBuf};
use std::process::{Command, Stdio};

/// The Python that has Debian's rdflib.
const PYTHON: &str = "/usr/bin/python3";
const VERSION: &str = "import rdflib; print(rdflib.__version__)";
const PARSE: &str = "import rdflib, sys; graph = rdflib.Graph(); graph.parse(sys.argv[1], format='nt'); ";
const COUNT: &str = "print(len(graph))";
const SERIALIZE: &str = "graph.serialize(sys.stdout.buffer, format='nt', encoding='utf-8')";

/// What is timed, in the order of the columns.
pub const PROCESSES: [Process; 5] = [
    Process { name: "write_triples", command: writing, is_right: is_text },
    Process { name: "read_triples", command: reading, is_right: is_image },
    Process { name: "serdi", command: serdi, is_right: is_text },
    Process { name: "rdflib parse", command: parsing, is_right: is_count },
    Process { name: "rdflib parse, serialize", command: serializing, is_right: has_same_lines },
];

/// Their places.
pub const WRITE: usize = 0;
pub const READ: usize = 1;
pub const SERDI: usize = 2;
pub const PARSE_TEXT: usize = 3;
pub const PARSE_AND_SERIALIZE: usize = 4;

pub struct Process {
    pub name: &'static str,
    command: fn(&Files) -> Command,
    /// Whether it printed what it has to for a text.
    is_right: fn(&Text, &[u8]) -> bool,
}

/// Where a text and its image stand.
struct Files {
    text: PathBuf,
    image: PathBuf,
}

/// The nanoseconds of each process, none where it is not installed.
pub type Times = [Option<f64>; 5];

pub struct Measured {
    /// The versions of those that are installed.
    pub serdi: Option<String>,
    pub rdflib: Option<String>,
    /// By text.
    pub times: Vec<Times>,
}

/// All processes print what they have to for each text; then they are timed, their output thrown away, each
/// once on each text within every repetition.
pub fn measure(settings: &Settings, texts: &[&Text]) -> Measured {
    let (serdi, rdflib) = (serdi_version(), rdflib_version());
    let installed = [true, true, serdi.is_some(), rdflib.is_some(), rdflib.is_some()];
    let processes: Vec<&Process> = PROCESSES
        .iter()
        .zip(installed)
        .filter(|(_, is_there)| *is_there)
        .map(|(process, _)| process)
        .collect();
    let files: Vec<Files> = texts.iter().map(|text| Files::written(text)).collect();
    for (text, files) in texts.iter().zip(&files) {
        processes.iter().for_each(|process| process.compare(text, files));
    }
    let each = files.iter().flat_map(|files| processes.iter().map(move |process| process.timed(files)));
    let readings = interleaved(settings.processes, &mut each.collect::<Vec<Run>>());
    let mut medians = readings.into_iter().map(median);
    let times = texts.iter().map(|_| installed.map(|is_there| is_there.then(|| medians.next()).flatten()));
    Measured { serdi, rdflib, times: times.collect() }
}

impl Files {
    fn written(text: &Text) -> Files {
        let files = Files {
            text: file_of(&format!("{}.nt", text.name)),
            image: file_of(&format!("{}.image", text.name)),
        };
        fs::write(&files.text, &text.text).expect("the target folder takes a file");
        fs::write(&files.image, &text.image).expect("the target folder takes a file");
        files
    }
}

impl Process {
    fn compare(&self, text: &Text, files: &Files) {
        let output = (self.command)(files).stderr(Stdio::inherit()).output().expect("the program starts");
        let is_right = output.status.success() && (self.is_right)(text, &output.stdout);
        assert!(is_right, "{} on {}: {}", self.name, text.name, output.status);
    }

    fn timed<'a>(&'a self, files: &'a Files) -> Run<'a> {
        Box::new(move || {
            let mut command = (self.command)(files);
            command.stdout(Stdio::null());
            processor_time(command)
        })
    }
}

fn writing(files: &Files) -> Command {
    fed(write_program(), &files.image)
}

fn reading(files: &Files) -> Command {
    fed(read_program(), &files.text)
}

fn fed(mut command: Command, path: &Path) -> Command {
    command.stdin(File::open(path).expect("the file is there"));
    command
}

fn serdi(files: &Files) -> Command {
    let mut command = Command::new("serdi");
    command.args(["-i", "ntriples", "-o", "ntriples", "-q"]).arg(&files.text);
    command
}

fn parsing(files: &Files) -> Command {
    python(&[PARSE, COUNT].concat(), &files.text)
}

fn serializing(files: &Files) -> Command {
    python(&[PARSE, SERIALIZE].concat(), &files.text)
}

/// A script with the path of a text; settings and packages of the user's own are left aside.
fn python(script: &str, text: &Path) -> Command {
    let mut command = Command::new(PYTHON);
    command.args(["-I", "-c", script]).arg(text);
    command
}

fn serdi_version() -> Option<String> {
    let mut command = Command::new("serdi");
    command.arg("-v");
    // `serdi 0.30.16 <..>`
    first_line(command)?.split(' ').nth(1).map(String::from)
}

fn rdflib_version() -> Option<String> {
    first_line(python(VERSION, Path::new("")))
}

/// The first line that a command prints, if there is such a command and it succeeds.
fn first_line(mut command: Command) -> Option<String> {
    let output = command.stderr(Stdio::null()).output().ok()?;
    let printed = String::from_utf8(output.stdout).ok()?;
    output.status.success().then(|| printed.lines().next().map(String::from)).flatten()
}

fn is_text(text: &Text, printed: &[u8]) -> bool {
    printed == text.text
}

fn is_image(text: &Text, printed: &[u8]) -> bool {
    printed == text.image_told
}

/// No line of a text is there twice.
fn is_count(text: &Text, printed: &[u8]) -> bool {
    printed == format!("{}\n", text.lines().count()).into_bytes()
}

/// rdflib keeps no order, and prints an empty line at the end.
fn has_same_lines(text: &Text, printed: &[u8]) -> bool {
    let mut lines: Vec<&[u8]> = text.lines().collect();
    let mut others: Vec<&[u8]> = printed.split_inclusive(|byte| *byte == b'\n').collect();
    others.retain(|line| *line != b"\n");
    lines.sort_unstable();
    others.sort_unstable();
    lines == others
}
