//! Input that cannot be read to its end. The programs stop there: they print nothing more on standard output,
//! and one line on standard error.

use crate::generator::graphs::{filled, image};
use crate::generator::long_lists::{long_list, TICKETS_AT_ONCE};
use crate::generator::Random;
use crate::independent::programs::Run;
use crate::process::{file_of, nameless_file, wait_until_ended, Printed, Program};
use crate::same::assert_same;
use std::fs::{File, OpenOptions};
use std::io::Write;
use std::os::unix::io::OwnedFd;
use std::os::unix::net::UnixStream;
use std::process::Stdio;

const ONE: &str = "apply_tickets: standard input could not be read\n";
const TWO: &str = "print_facts: standard input could not be read\n";

/// Both programs print this line alone.
fn assert_unread(input: impl Fn() -> File) {
    for (program, line) in [(Program::one(), ONE), (Program::two(), TWO)] {
        let printed = Printed::by(program.start(input(), Stdio::piped()));
        assert_eq!((printed.output.as_str(), printed.errors.as_str()), ("", line));
    }
}

/// Sees a program that takes a failed read for the end of its input (program one would print the count of a
/// fresh table), or says nothing.
#[test]
fn a_directory() {
    assert_unread(|| File::open(env!("CARGO_MANIFEST_DIR")).expect("a directory can be opened"));
}

/// Sees the same where the read fails for another reason.
#[test]
fn a_file_open_for_writing_only() {
    assert_unread(|| nameless_file(OpenOptions::new().write(true)));
}

/// What a program prints whose input does not wait: a read fails where nothing is there. One part is there
/// from the start; the other comes when the program has ended, or after five seconds.
fn with_a_pause(program: &Program, before: &[u8], after: &[u8]) -> Printed {
    let (mut here, there) = UnixStream::pair().expect("two ends");
    there.set_nonblocking(true).expect("reads of it do not wait");
    here.write_all(before).expect("there is room");
    let mut child = program.start(OwnedFd::from(there), Stdio::piped());
    wait_until_ended(&mut child);
    // A program that has ended takes no more.
    drop(here.write_all(after));
    drop(here);
    Printed::by(child)
}

/// Sees a program that takes the pause for the end, and prints a count as if all tickets had been run; one
/// that goes on after the pause, in the midst of a ticket even; one that runs tickets of 16,000 bytes that it
/// could not read to their end; one that says nothing.
#[test]
fn a_pause_of_tickets_that_do_not_wait() {
    let tickets = long_list(&mut Random::for_test("a_pause_of_tickets"), TICKETS_AT_ONCE + 20);
    let bytes = tickets.concat();
    let mut run = Run::fresh();
    for ticket in &tickets[..TICKETS_AT_ONCE] {
        run.apply(ticket);
    }
    let whole = 5 * TICKETS_AT_ONCE;
    for (before, lines) in
        [(0, ""), (3, ""), (10, ""), (whole - 1, ""), (whole, run.lines()), (whole + 10, run.lines())]
    {
        let printed = with_a_pause(&Program::one(), &bytes[..before], &bytes[before..]);
        assert_same(&printed.output, lines, &format!("a pause after {before} bytes"));
        assert_eq!(printed.errors, ONE, "a pause after {before} bytes");
    }
}

/// Sees a program that takes the pause for the end of the image, and refuses or prints what is there; one
/// that says nothing.
#[test]
fn a_pause_of_an_image_that_does_not_wait() {
    let image = image(&filled(&mut Random::for_test("a_pause_of_an_image"), 300));
    for before in [0, 1, image.len() / 2, image.len()] {
        let printed = with_a_pause(&Program::two(), &image[..before], &image[before..]);
        assert_eq!(
            (printed.output.as_str(), printed.errors.as_str()),
            ("", TWO),
            "a pause after {before} bytes"
        );
    }
}

/// Sees a program that takes the end of its input for a failure, at the start or after a ticket.
#[test]
fn an_input_that_ends_is_read() {
    for input in [&[][..], &[1, 1, 2, 0, 0]] {
        for program in [Program::one(), Program::two()] {
            let printed = Printed::by(program.start(file_of(input), Stdio::piped()));
            assert_eq!(printed.errors, "");
        }
    }
}
