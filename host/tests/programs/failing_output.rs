//! Output that cannot be written. The programs stop there, and print one line on standard error; where the
//! reader of a pipe is gone the system ends them.

use crate::generator::graphs::{filled, image};
use crate::generator::long_lists::{long_list, TICKETS_AT_ONCE};
use crate::generator::Random;
use crate::independent::graph::Graph;
use crate::independent::programs::Run;
use crate::process::{file_of, wait_until_ended, Printed, Program};
use std::fs::{File, OpenOptions};
use std::io::{ErrorKind, Read, Seek, Write};
use std::os::unix::io::OwnedFd;
use std::os::unix::net::UnixStream;
use std::path::Path;
use std::process::{ChildStderr, Stdio};
use std::thread::{self, JoinHandle};

const ONE: &str = "apply_tickets: standard output could not be written\n";
const TWO: &str = "print_facts: standard output could not be written\n";

/// What a program prints on standard error with such an output, and how much of its input it takes.
fn errors_and_taken(program: &Program, input: &[u8], output: File) -> (String, usize) {
    let file = file_of(input);
    // Both have one place in the file.
    let mut same = file.try_clone().expect("the file once more");
    let errors = Printed::by(program.start(file, output)).errors;
    (errors, same.stream_position().expect("a place in the file") as usize)
}

/// Program one says so for the count alone, for some lines, and for more tickets than it reads at once, of
/// which it takes no more; program two for an image with facts, and not for a refused one, for which it has
/// nothing to write.
fn assert_unwritten(output: impl Fn() -> File) {
    let at_once = 5 * TICKETS_AT_ONCE;
    let tickets = long_list(&mut Random::for_test("unwritten_lines"), 2 * TICKETS_AT_ONCE + 1).concat();
    for length in [0, 3, 25, at_once, at_once + 5, tickets.len()] {
        let (errors, taken) = errors_and_taken(&Program::one(), &tickets[..length], output());
        assert_eq!(errors, ONE, "{length} bytes of tickets");
        assert_eq!(taken, length.min(at_once), "of {length} bytes of tickets");
    }
    let full = image(&filled(&mut Random::for_test("unwritten_words"), 2_048));
    assert_eq!(errors_and_taken(&Program::two(), &full, output()).0, TWO);
    let (empty, cut) = (image(&Graph::of([])), &full[1..]);
    assert_eq!(errors_and_taken(&Program::two(), &empty, output()).0, "");
    assert_eq!(errors_and_taken(&Program::two(), cut, output()).0, "");
}

/// Sees a program that ignores a failed write, or goes on after it, or says so for each write.
#[test]
fn a_full_device() {
    let device = Path::new("/dev/full");
    if !device.exists() {
        println!("not run: there is no {}", device.display());
        return;
    }
    assert_unwritten(|| OpenOptions::new().write(true).open(device).expect("the device can be opened"));
}

/// Sees the same where the write fails for another reason.
#[test]
fn a_file_open_for_reading_only() {
    assert_unwritten(|| {
        File::open(concat!(env!("CARGO_MANIFEST_DIR"), "/Cargo.toml")).expect("a file can be opened")
    });
}

/// The reader of the pipe is gone before the input comes: the first write fails, and the program stops there, with
/// one line on standard error. A program that Rattle builds is not ended by the signal of a pipe that nobody can
/// read any more.
#[test]
fn a_reader_who_closes_the_pipe() {
    let tickets = long_list(&mut Random::for_test("no_reader"), 2 * TICKETS_AT_ONCE + 1).concat();
    let words = image(&filled(&mut Random::for_test("no_reader_of_facts"), 2_048));
    for (program, input, line) in [
        (Program::one(), &tickets[..], ONE),
        (Program::one(), &tickets[..0], ONE),
        (Program::two(), &words[..], TWO),
    ] {
        let mut child = program.start(Stdio::piped(), Stdio::piped());
        drop(child.stdout.take());
        let mut pipe = child.stdin.take().expect("the input is a pipe");
        // A program that has ended takes no more.
        drop(pipe.write_all(input));
        drop(pipe);
        let ended = child.wait_with_output().expect("the program ends");
        assert_eq!(ended.status.code(), Some(0), "with {} bytes", input.len());
        assert_eq!(ended.stderr, line.as_bytes(), "with {} bytes", input.len());
    }
}

/// So many tickets come while nobody reads, and so many later.
const BEFORE: usize = 80_000;
const AFTER: usize = 3_201;

/// The tickets, on a small graph, and the lines of all of them.
fn many_tickets(random: &mut Random) -> (Vec<[u8; 5]>, String) {
    let sorts = [[1, 4, 7, 0, 0], [2, 4, 7, 0, 0], [2, 1, 0, 0, 0], [9, 0, 0, 0, 0]];
    let tickets: Vec<[u8; 5]> = (0..BEFORE + AFTER).map(|_| random.pick(&sorts)).collect();
    let mut run = Run::fresh();
    for ticket in &tickets {
        run.apply(ticket);
    }
    (tickets, run.lines().to_string())
}

/// What is there to be read, until the other end is closed or, if it does not wait, nothing is there.
fn read_all(from: &mut UnixStream) -> Vec<u8> {
    let mut bytes = Vec::new();
    match from.read_to_end(&mut bytes) {
        Err(error) if error.kind() != ErrorKind::WouldBlock => panic!("{error}"),
        _ => bytes,
    }
}

/// The output does not wait: a write fails where it is full. Nobody reads it until the program has ended, or
/// for five seconds; then there is room again, and more tickets come. Sees a program that goes on after a
/// failed write: lines are missing before those that come later, and before the count.
#[test]
fn an_output_that_is_full_for_a_while() {
    let (tickets, lines) = many_tickets(&mut Random::for_test("an_output_that_is_full"));
    let (mut here, there) = UnixStream::pair().expect("two ends");
    there.set_nonblocking(true).expect("writes to it do not wait");
    let mut child = Program::one().start(Stdio::piped(), OwnedFd::from(there));
    let mut pipe = child.stdin.take().expect("the input is a pipe");
    let errors = read_aside(child.stderr.take().expect("standard error is a pipe"));
    // A program that has ended takes no more.
    drop(pipe.write_all(&tickets[..BEFORE].concat()));
    wait_until_ended(&mut child);
    here.set_nonblocking(true).expect("the first part is read without waiting");
    let mut output = read_all(&mut here);
    drop(pipe.write_all(&tickets[BEFORE..].concat()));
    drop(pipe);
    here.set_nonblocking(false).expect("the rest is waited for");
    output.extend(read_all(&mut here));
    assert!(child.wait().expect("the program ends").success());
    let output = String::from_utf8(output).expect("the program prints text");
    assert!(output.len() < lines.len(), "the output is never full");
    assert!(lines.starts_with(&output), "the lines printed are not the first ones");
    assert_eq!(errors.join().expect("standard error is read"), ONE);
}

/// All that comes from there, read while the test goes on, so that a program which prints much does not wait
/// for it.
fn read_aside(mut from: ChildStderr) -> JoinHandle<String> {
    thread::spawn(move || {
        let mut text = String::new();
        from.read_to_string(&mut text).expect("the program prints text");
        text
    })
}
