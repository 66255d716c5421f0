//! Two other implementations of document 01, in plain safe Rust, which the benchmark measures beside the
//! proved one and the tests compare with the independent one: `sorted` keeps the table's words sorted and
//! searches them, `bit_rows` keeps sets of 256 bits. What does not depend on how a table is kept they share:
//! the form of a ticket, the clash by lookups, the contents of an image, the calls, the lines of program one,
//! texts of N-Triples.

// The tests and the benchmark each use their own share of this module.
#![allow(dead_code)]

pub mod bit_rows;
pub mod clash;
pub mod contents;
pub mod fact;
pub mod form;
pub mod program;
pub mod sorted;
pub mod triples;

use vimelosa_host::LONGEST_IMAGE;

/// A list is cut into tickets of so many bytes.
pub const TICKET_LENGTH: usize = 5;

/// A list call takes so many tickets at most: its counts have 16 bits.
const MOST_TICKETS: usize = 65_535;

/// The answer to a ticket: 0 or a refusal, the facts added, the facts removed.
#[derive(Clone, Copy, PartialEq, Eq, Debug)]
pub struct Answer {
    pub number: u8,
    pub added: usize,
    pub removed: usize,
}

impl Answer {
    pub fn accepted(added: usize, removed: usize) -> Answer {
        Answer { number: 0, added, removed }
    }

    pub fn refused(number: u8) -> Answer {
        Answer { number, added: 0, removed: 0 }
    }
}

/// A consistent table of 2,048 words, however it is kept.
pub trait Rival: Sized {
    /// The table that holds Cl(0) only.
    fn fresh() -> Self;

    /// The table of an image, or refusal 12, 11 or 3.
    fn read(image: &[u8]) -> Result<Self, u8>;

    /// The check of a table's words: refusals 1, 2, 3, or 0.
    fn check(table: &[u32]) -> u8;

    /// Runs one ticket. A refused one leaves the table as it was.
    fn apply(&mut self, ticket: &[u8]) -> Answer;

    /// Writes the image and answers its length, or refusal 13.
    fn write(&self, output: &mut [u8]) -> Result<usize, u8>;

    fn count_facts(&self) -> usize;

    /// The image as bytes of its own.
    fn image(&self) -> Vec<u8> {
        let mut output = vec![0; LONGEST_IMAGE];
        let length = self.write(&mut output).expect("no image is longer");
        output.truncate(length);
        output
    }
}

/// The host call: reads, applies, writes, and answers four numbers of 16 bits, lowest first.
pub fn host_call<R: Rival>(image: &[u8], ticket: &[u8], output: &mut [u8]) -> u64 {
    let mut table = match R::read(image) {
        Ok(table) => table,
        Err(refusal) => return u64::from(refusal),
    };
    let answer = table.apply(ticket);
    if answer.number != 0 {
        return u64::from(answer.number);
    }
    match table.write(output) {
        Ok(length) => accepted([answer.added, answer.removed, length]),
        Err(refusal) => u64::from(refusal),
    }
}

/// The list call: reads, runs the tickets in turn, writes the image and then the answers, and answers four
/// numbers of 16 bits, lowest first.
pub fn list_call<R: Rival>(image: &[u8], tickets: &[u8], answers: &mut [u8], output: &mut [u8]) -> u64 {
    let mut table = match R::read(image) {
        Ok(table) => table,
        Err(refusal) => return u64::from(refusal),
    };
    let tickets = tickets.chunks(TICKET_LENGTH);
    let answers = match answers.get_mut(..tickets.len()) {
        Some(answers) if answers.len() <= MOST_TICKETS => answers,
        _ => return 14,
    };
    let numbers: Vec<u8> = tickets.map(|ticket| table.apply(ticket).number).collect();
    match table.write(output) {
        Ok(length) => {
            answers.copy_from_slice(&numbers);
            let refused = numbers.iter().filter(|number| **number != 0).count();
            accepted([numbers.len() - refused, refused, length])
        }
        Err(refusal) => u64::from(refusal),
    }
}

/// The number of an accepted call: the answer 0, and three more numbers of 16 bits.
pub fn accepted(numbers: [usize; 3]) -> u64 {
    numbers.iter().rev().fold(0, |all, number| all << 16 | *number as u64) << 16
}
