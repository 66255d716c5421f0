//! Program one on lists that are longer than what it reads at once, 3,200 tickets or 16,000 bytes.

use crate::generator::long_lists::long_list;
use crate::generator::Random;
use crate::independent::programs::Run;
use crate::process::{file_of, odd_pieces, Fed, Printed, Program};
use crate::same::assert_same;
use std::process::Stdio;
use std::thread;
use std::time::Duration;

/// A ticket less than what is read at once, as much, a ticket more; as much as two reads bring, a ticket
/// more.
const COUNTS: [usize; 5] = [3_199, 3_200, 3_201, 6_400, 6_401];

/// So many tickets that their lines pass what a pipe holds.
const MANY: usize = 12_801;
const PIPE: usize = 65_536;

/// An input of program one, and what it has to print for it.
struct Case {
    name: String,
    input: Vec<u8>,
    printed: String,
}

/// A long list cut off after so many tickets, with 0 to 4 bytes left over, which are the start of the next
/// ticket. At each of these places stand more facts than a table of 1,024 words holds.
fn cases(random: &mut Random, counts: &[usize]) -> Vec<Case> {
    let most = counts.iter().max().expect("there are counts");
    let tickets = long_list(random, most + 1);
    let bytes = tickets.concat();
    let mut run = Run::fresh();
    let (mut cases, mut changes) = (Vec::new(), Vec::new());
    for (place, ticket) in tickets.iter().enumerate() {
        if counts.contains(&place) {
            assert!(run.count_facts() > 1_024, "{} facts after {place} tickets", run.count_facts());
            cases.extend((0..5).map(|left_over| case(&run, &bytes[..5 * place + left_over], left_over)));
        }
        let answer = run.apply(ticket);
        changes.push(answer.added + answer.removed > 0);
    }
    assert_changes_all_along(&changes);
    cases
}

/// Of each 200 tickets some change the table.
fn assert_changes_all_along(changes: &[bool]) {
    let counts = changes.chunks_exact(200).map(|part| part.iter().filter(|change| **change).count());
    let fewest = counts.min().expect("there are 200 tickets");
    assert!(fewest >= 10, "only {fewest} of 200 tickets change the table");
}

fn case(run: &Run, input: &[u8], left_over: usize) -> Case {
    let mut run = run.clone();
    let (tickets, rest) = input.split_at(input.len() - left_over);
    if left_over > 0 {
        run.apply(rest);
    }
    let name = format!("{} tickets and {left_over} bytes", tickets.len() / 5);
    Case { name, input: input.to_vec(), printed: run.print() }
}

/// Program one prints for each list what the independent implementation prints, and nothing on standard
/// error.
fn assert_cases<'a>(cases: &'a [Case], mut fed: impl FnMut(&'a [u8]) -> Fed<'a>) {
    let program = Program::one();
    for case in cases {
        assert_same(&program.output_of(fed(&case.input)), &case.printed, &case.name);
    }
}

/// Sees a program that reads once and takes no more; one that reads 15,999 bytes at once, or any other number
/// that is no multiple of five, and so cuts a ticket in two; one with a table of 1,024 words; one that prints
/// on standard error.
#[test]
fn from_a_file() {
    let mut random = Random::for_test("long_lists_from_a_file");
    assert_cases(&cases(&mut random, &COUNTS), Fed::File);
}

/// Sees the same as `from_a_file` where the input is a pipe that takes all of it at once.
#[test]
fn from_a_pipe() {
    let mut random = Random::for_test("long_lists_from_a_pipe");
    assert_cases(&cases(&mut random, &COUNTS), |input| Fed::Pipe(vec![input]));
}

/// Sees moreover a program that takes a short read for the end of the input, or runs what a read brings
/// before the ticket is whole.
#[test]
fn from_a_pipe_in_odd_pieces() {
    let mut random = Random::for_test("long_lists_in_odd_pieces");
    let cases = cases(&mut random, &COUNTS);
    assert_cases(&cases, |input| Fed::Pipe(odd_pieces(&mut random, input)));
}

/// Sees a program that stops after some reads, or gathers all of its lines in a buffer of 64 KB. The last
/// reader comes when the pipe is full and the program waits.
#[test]
fn with_more_output_than_a_pipe_holds() {
    let mut random = Random::for_test("long_lists_with_long_output");
    let cases = cases(&mut random, &[MANY]);
    assert!(cases.iter().all(|case| case.printed.len() > PIPE));
    assert_cases(&cases, Fed::File);
    assert_cases(&cases, |input| Fed::Pipe(vec![input]));
    assert_cases(&cases, |input| Fed::Pipe(odd_pieces(&mut random, input)));
    for case in &cases {
        let child = Program::one().start(file_of(&case.input), Stdio::piped());
        thread::sleep(Duration::from_millis(100));
        let printed = Printed::by(child);
        assert_same(&printed.output, &case.printed, &case.name);
        assert_eq!(printed.errors, "");
    }
}
