//! The programs `write_triples`, `read_triples` and `check_triples` on images and texts.

use crate::generator::damage::damaged;
use crate::generator::graphs::{broken, filled, grown, image, marked, overlong, some_image_of};
use crate::generator::outside::OUTSIDE;
use crate::generator::tickets::{ALL_IDS, FEW, MANY};
use crate::generator::triples::*;
use crate::generator::{rounds, Random};
use crate::independent::graph::Graph;
use crate::independent::programs::{print_answer, print_image, print_text, LONGEST_TAKEN};
use crate::independent::table::fresh_graph;
use crate::independent::triples::{lines_of, text_of, without_lone_literals};
use crate::process::{file_of, nameless_file, odd_pieces, Fed, Printed, PrintedBytes, Program};
use crate::vector_files::ntriples_files;
use std::fs::{File, OpenOptions};
use std::path::Path;
use std::process::Stdio;

/// The bytes are the same; they are not printed again.
fn assert_same_bytes(found: &[u8], expected: &[u8], input: &[u8]) {
    let place = found.iter().zip(expected).position(|(one, other)| one != other);
    let lengths = (found.len(), expected.len());
    let start = String::from_utf8_lossy(&input[..input.len().min(2_000)]);
    assert!(found == expected, "lengths {lengths:?}, first other byte {place:?}, for {start}");
}

/// `write_triples` prints what the independent one prints, and nothing on standard error.
fn same_text(program: &Program, fed: Fed, image: &[u8]) {
    assert_same_bytes(program.output_of(fed).as_bytes(), print_text(image).as_bytes(), image);
}

/// The two programs that read a text.
struct Readers {
    read: Program,
    check: Program,
}

impl Readers {
    fn find() -> Readers {
        Readers { read: Program::read_triples(), check: Program::check_triples() }
    }

    /// Both print what the independent ones print, and nothing on standard error.
    fn same<'t>(&self, text: &'t [u8], mut fed: impl FnMut(&'t [u8]) -> Fed<'t>) {
        let printed = self.read.run_for_bytes(fed(text));
        assert_eq!(printed.errors, "", "on standard error");
        assert_same_bytes(&printed.output, &print_image(text), text);
        let answer = self.check.output_of(fed(text));
        assert_same_bytes(answer.as_bytes(), print_answer(text).as_bytes(), text);
    }

    fn same_by_pipe(&self, text: &[u8]) {
        self.same(text, |text| Fed::Pipe(vec![text]));
    }
}

#[test]
fn write_triples_on_images() {
    let program = Program::write_triples();
    let mut random = Random::for_test("write_triples_on_images");
    for round in 0..rounds(100) {
        let graph = grown(&mut random, &ALL_IDS[round % 4], 40, 2048);
        let whole = some_image_of(&mut random, &graph);
        let mut images = vec![damaged(&mut random, &whole), image(&broken(&mut random, &FEW)), whole];
        images.push(image(&marked(&mut random, &FEW)));
        for image in &images {
            same_text(&program, Fed::Pipe(vec![image]), image);
        }
    }
}

/// The longest text there is, from files and pipes; full tables; images too long, and every shorter length.
#[test]
fn write_triples_on_full_images() {
    let program = Program::write_triples();
    let mut random = Random::for_test("write_triples_on_full_images");
    let graphs =
        [longest_text(), full(&mut random, 2048), filled(&mut random, 2049), overlong(), Graph::default()];
    for graph in graphs {
        let image = image(&graph);
        same_text(&program, Fed::File(&image), &image);
        same_text(&program, Fed::Pipe(vec![&image]), &image);
        same_text(&program, Fed::Pipe(odd_pieces(&mut random, &image)), &image);
        for more in [1, 5_000, 70_000] {
            let longer = [image.as_slice(), &vec![0; more]].concat();
            same_text(&program, Fed::Pipe(vec![&longer]), &longer);
        }
    }
    let whole = image(&grown(&mut random, &FEW, 20, 40));
    for length in 0..=whole.len() {
        same_text(&program, Fed::Pipe(vec![&whole[..length]]), &whole[..length]);
    }
}

#[test]
fn readers_on_texts_of_any_sort() {
    let readers = Readers::find();
    let mut random = Random::for_test("readers_on_texts");
    for round in 0..rounds(250) {
        let text = some_text(&mut random, &ALL_IDS[round % 4]);
        readers.same_by_pipe(&text);
    }
    for (_, change) in OUTSIDE {
        let graph = grown(&mut random, &MANY, 30, 200);
        let mut lines = shuffled_lines(&mut random, &graph);
        change(&mut random, &mut lines);
        readers.same(lines.concat().as_bytes(), Fed::File);
    }
}

#[test]
fn readers_on_the_suite() {
    let readers = Readers::find();
    for file in ntriples_files() {
        readers.same_by_pipe(&file.text);
        assert_eq!(readers.check.output(&file.text), format!("{}\n", file.answer), "{}", file.name);
    }
}

#[test]
fn readers_on_crowded_texts() {
    let readers = Readers::find();
    let mut random = Random::for_test("readers_on_crowded_texts");
    for (text, answer) in crowded_texts(&mut random) {
        readers.same(text.as_bytes(), Fed::File);
        assert_eq!(readers.check.output(text.as_bytes()), format!("{answer}\n"));
    }
}

/// What one program writes the other reads.
#[test]
fn what_is_written_is_read_again() {
    let (write, read) = (Program::write_triples(), Program::read_triples());
    let mut random = Random::for_test("programs_round_trip");
    for round in 0..rounds(40) {
        let graph = grown(&mut random, &ALL_IDS[round % 4], 50, 2048);
        let text = write.output(&image(&graph));
        let again = read.run_for_bytes(Fed::File(text.as_bytes()));
        assert_same_bytes(&again.output, &image(&without_lone_literals(&graph)), text.as_bytes());
    }
}

/// The lines of a graph again and again, to exactly this length, which lines of 145 and of 39 bytes fill up:
/// those of Cl(0) and of the values of two individuals.
fn text_of_length(random: &mut Random, length: usize) -> String {
    let graph = full(random, 2_048);
    let lines = lines_of(&graph);
    let some_line =
        |length: usize| lines.iter().find(|line| line.len() == length).expect("there is such a line");
    let start = shuffled_lines(random, &graph).concat();
    let again = (length - start.len() - 145 * 39) / text_of(&graph).len();
    let text = start + &text_of(&graph).repeat(again);
    let missing = length - text.len();
    let long =
        (0..39).find(|long| (missing - 145 * long) % 39 == 0).expect("145 and 39 have no common divisor");
    let short = (missing - 145 * long) / 39;
    text + &some_line(145).repeat(long) + &some_line(39).repeat(short)
}

/// Texts as long as the programs take, whole and with a bad end, from files and pipes.
#[test]
fn readers_on_the_longest_texts() {
    let readers = Readers::find();
    let mut random = Random::for_test("readers_on_the_longest_texts");
    for length in [LONGEST_TAKEN, LONGEST_TAKEN - 1, LONGEST_TAKEN - 65_536] {
        let text = text_of_length(&mut random, length);
        assert_eq!((text.len(), print_answer(text.as_bytes()).as_str()), (length, "0\n"));
        readers.same(text.as_bytes(), Fed::File);
        readers.same_by_pipe(text.as_bytes());
        readers.same(text.as_bytes(), |text| Fed::Pipe(odd_pieces(&mut random, text)));
        let cut = &text.as_bytes()[..length - 1];
        readers.same(cut, Fed::File);
        let bad = text[..length - 1].to_string() + " ";
        readers.same(bad.as_bytes(), Fed::File);
    }
}

/// What `read_triples` and `check_triples` say of a text that is too long.
const TOO_LONG: &str = "the input is too long\n";

/// A longer text is never cut off: nothing is printed on standard output, and the reason on standard error.
#[test]
fn readers_on_texts_too_long() {
    let readers = Readers::find();
    let mut random = Random::for_test("readers_on_texts_too_long");
    let good = text_of_length(&mut random, LONGEST_TAKEN) + &text_of(&fresh_graph());
    let spaces = vec![b' '; 2 * LONGEST_TAKEN];
    for text in [&good.as_bytes()[..LONGEST_TAKEN + 1], good.as_bytes(), &spaces] {
        for program in [&readers.read, &readers.check] {
            for fed in [Fed::File(text), Fed::Pipe(vec![text]), Fed::Pipe(odd_pieces(&mut random, text))] {
                let PrintedBytes { output, errors } = program.run_for_bytes(fed);
                assert_eq!(output, b"");
                assert!(errors.ends_with(TOO_LONG) && errors.lines().count() == 1, "{errors}");
            }
        }
    }
}

fn each_program() -> [(Program, &'static str); 3] {
    [
        (Program::write_triples(), "write_triples"),
        (Program::read_triples(), "read_triples"),
        (Program::check_triples(), "check_triples"),
    ]
}

/// A read that fails is told, and nothing else is printed.
#[test]
fn on_input_that_cannot_be_read() {
    let directory = || File::open(env!("CARGO_MANIFEST_DIR")).expect("a directory can be opened");
    let unreadable = || nameless_file(OpenOptions::new().write(true));
    for (program, name) in each_program() {
        for input in [directory(), unreadable()] {
            let printed = Printed::by(program.start(input, Stdio::piped()));
            let line = format!("{name}: standard input could not be read\n");
            assert_eq!((printed.output.as_str(), printed.errors), ("", line));
        }
    }
}

/// A write that fails is told; where nothing is to be written, nothing is told.
#[test]
fn on_output_that_cannot_be_written() {
    let device = Path::new("/dev/full");
    if !device.exists() {
        println!("not run: there is no {}", device.display());
        return;
    }
    let full_device = || OpenOptions::new().write(true).open(device).expect("the device can be opened");
    let mut random = Random::for_test("triples_unwritten");
    for graph in [fresh_graph(), full(&mut random, 2048), longest_text()] {
        let (image, text) = (image(&graph), text_of(&graph));
        for (program, name) in each_program() {
            let input = if name == "write_triples" { &image[..] } else { text.as_bytes() };
            let errors = Printed::by(program.start(file_of(input), full_device())).errors;
            assert_eq!(errors, format!("{name}: standard output could not be written\n"));
            let refused = Printed::by(program.start(file_of(&input[1..]), full_device())).errors;
            let has_answer = name == "check_triples";
            assert_eq!(!refused.is_empty(), has_answer, "{refused}");
        }
    }
}
