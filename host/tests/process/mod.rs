//! The programs, run as processes: how they are fed, and what they print.

// Each test uses its own share of this module.
#![allow(dead_code)]

use crate::generator::Random;
use std::env;
use std::fs::{self, File, OpenOptions};
use std::io::{Seek, Write};
use std::path::{Path, PathBuf};
use std::process::{self, Child, ChildStdin, Command, Stdio};
use std::sync::atomic::{AtomicUsize, Ordering};
use std::thread;
use std::time::{Duration, Instant};

/// After each piece but the last, so that a program which waits for input takes each by itself.
const PAUSE: Duration = Duration::from_micros(300);

pub struct Program {
    path: PathBuf,
}

/// How a program comes by its input.
pub enum Fed<'a> {
    File(&'a [u8]),
    /// A pipe, a write for each piece.
    Pipe(Vec<&'a [u8]>),
}

/// What a program that has ended printed.
pub struct Printed {
    pub output: String,
    pub errors: String,
}

/// The same where its output is bytes.
pub struct PrintedBytes {
    pub output: Vec<u8>,
    pub errors: String,
}

impl Program {
    /// Program one: VIMELOSA_APPLY_TICKETS, or target/bin/apply_tickets of the repository.
    pub fn one() -> Program {
        Program::find("VIMELOSA_APPLY_TICKETS", "../target/bin/apply_tickets")
    }

    /// Program two: VIMELOSA_PRINT_FACTS, or target/bin/print_facts of the repository.
    pub fn two() -> Program {
        Program::find("VIMELOSA_PRINT_FACTS", "../target/bin/print_facts")
    }

    /// The calls by a script: VIMELOSA_RUN_CALLS, or target/bin/run_calls of the repository.
    pub fn calls() -> Program {
        Program::find("VIMELOSA_RUN_CALLS", "../target/bin/run_calls")
    }

    /// The text of an image: VIMELOSA_WRITE_TRIPLES, or target/bin/write_triples of the repository.
    pub fn write_triples() -> Program {
        Program::find("VIMELOSA_WRITE_TRIPLES", "../target/bin/write_triples")
    }

    /// The image of a text: VIMELOSA_READ_TRIPLES, or target/bin/read_triples of the repository.
    pub fn read_triples() -> Program {
        Program::find("VIMELOSA_READ_TRIPLES", "../target/bin/read_triples")
    }

    /// The answer of reading a text: VIMELOSA_CHECK_TRIPLES, or target/bin/check_triples of the repository.
    pub fn check_triples() -> Program {
        Program::find("VIMELOSA_CHECK_TRIPLES", "../target/bin/check_triples")
    }

    fn find(variable: &str, place: &str) -> Program {
        let built = Path::new(env!("CARGO_MANIFEST_DIR")).join(place);
        let path = env::var_os(variable).map_or(built, PathBuf::from);
        assert!(path.is_file(), "{} is not there: build the programs first", path.display());
        Program { path }
    }

    /// What the program prints on standard output for the input, from a pipe in one go.
    pub fn output(&self, input: &[u8]) -> String {
        self.output_of(Fed::Pipe(vec![input]))
    }

    /// What the program prints on standard output. On standard error it prints nothing.
    pub fn output_of(&self, fed: Fed) -> String {
        let printed = self.run(fed);
        assert_eq!(printed.errors, "", "on standard error");
        printed.output
    }

    fn run(&self, fed: Fed) -> Printed {
        self.run_for_bytes(fed).into_text()
    }

    /// What the program prints where its output is bytes.
    pub fn run_for_bytes(&self, fed: Fed) -> PrintedBytes {
        match fed {
            Fed::File(input) => PrintedBytes::by(self.start(file_of(input), Stdio::piped())),
            Fed::Pipe(pieces) => {
                let mut child = self.start(Stdio::piped(), Stdio::piped());
                let pipe = child.stdin.take().expect("the input is a pipe");
                thread::scope(|scope| {
                    scope.spawn(move || write_pieces(pipe, &pieces));
                    PrintedBytes::by(child)
                })
            }
        }
    }

    /// The program at work, with these as its standard input and standard output.
    pub fn start(&self, stdin: impl Into<Stdio>, stdout: impl Into<Stdio>) -> Child {
        let mut command = Command::new(&self.path);
        command.stdin(stdin).stdout(stdout).stderr(Stdio::piped()).spawn().expect("the program starts")
    }
}

impl Printed {
    /// What the program prints until it ends, where that goes to a pipe.
    pub fn by(child: Child) -> Printed {
        PrintedBytes::by(child).into_text()
    }
}

impl PrintedBytes {
    /// What the program prints until it ends, where that goes to a pipe.
    pub fn by(child: Child) -> PrintedBytes {
        let ended = child.wait_with_output().expect("the program ends");
        assert!(ended.status.success(), "{:?}", ended.status);
        let errors = String::from_utf8(ended.stderr).expect("the program prints text on standard error");
        PrintedBytes { output: ended.stdout, errors }
    }

    fn into_text(self) -> Printed {
        let output = String::from_utf8(self.output).expect("the program prints text");
        Printed { output, errors: self.errors }
    }
}

/// Waits until the program has ended, or for five seconds.
pub fn wait_until_ended(child: &mut Child) {
    let start = Instant::now();
    while start.elapsed() < Duration::from_secs(5) {
        if child.try_wait().expect("the program can be waited for").is_some() {
            return;
        }
        thread::sleep(Duration::from_millis(2));
    }
}

/// A program may end before it has taken all of its input, as with an image that is too long.
fn write_pieces(mut pipe: ChildStdin, pieces: &[&[u8]]) {
    for (place, piece) in pieces.iter().enumerate() {
        if place > 0 {
            thread::sleep(PAUSE);
        }
        if pipe.write_all(piece).is_err() {
            return;
        }
    }
}

/// The input cut into pieces of 1 to 7,001 bytes, none longer than half of it, and about every other one
/// shorter than two tickets.
pub fn odd_pieces<'a>(random: &mut Random, input: &'a [u8]) -> Vec<&'a [u8]> {
    let longest = 7_001.min(1.max(input.len() / 2));
    let mut pieces = Vec::new();
    let mut rest = input;
    while !rest.is_empty() {
        let most = random.pick(&[9, longest]);
        let (piece, after) = rest.split_at(rest.len().min(1 + random.below(most)));
        pieces.push(piece);
        rest = after;
    }
    pieces
}

/// A file with these bytes, at its start.
pub fn file_of(bytes: &[u8]) -> File {
    let mut file = nameless_file(OpenOptions::new().read(true).write(true));
    file.write_all(bytes).expect("the file takes the bytes");
    file.rewind().expect("the file is read from its start");
    file
}

/// A new file that has no name any more, so that nothing is left of it.
pub fn nameless_file(options: &mut OpenOptions) -> File {
    static COUNT: AtomicUsize = AtomicUsize::new(0);
    let name = format!("input-{}-{}", process::id(), COUNT.fetch_add(1, Ordering::Relaxed));
    let path = Path::new(env!("CARGO_TARGET_TMPDIR")).join(name);
    let file = options.create_new(true).open(&path).expect("a new file");
    fs::remove_file(&path).expect("the file loses its name");
    file
}
