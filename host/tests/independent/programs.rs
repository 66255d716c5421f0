//! What the programs print: one and two, and the three that write, read and check triples.

use super::host::host_read_triples;
use super::image::{read, CONTENTS_LENGTH};
use super::list::TICKET_LENGTH;
use super::table::{facts_of, fresh, MOST_WORDS};
use super::ticket::{apply, Answer};
use super::triples::{read_triples, text_of};

/// The answers to the tickets on a fresh table of 2,048 words, and the facts at the end.
pub fn run_tickets(input: &[u8]) -> (Vec<Answer>, Vec<u32>) {
    let mut run = Run::fresh();
    let tickets = input.chunks(TICKET_LENGTH);
    let answers = tickets.map(|ticket| run.apply(ticket)).collect();
    (answers, words_of(&run.table))
}

/// The words of a table's facts.
pub fn words_of(table: &[u32]) -> Vec<u32> {
    let graph = facts_of(table).expect("the table is laid out");
    graph.facts().map(|fact| fact.word()).collect()
}

/// Program one at work: its table of 2,048 words, and the lines of the tickets so far.
#[derive(Clone)]
pub struct Run {
    table: Vec<u32>,
    lines: String,
}

impl Run {
    pub fn fresh() -> Run {
        let mut table = vec![0; MOST_WORDS];
        fresh(&mut table);
        Run { table, lines: String::new() }
    }

    pub fn apply(&mut self, ticket: &[u8]) -> Answer {
        let answer = apply(&mut self.table, ticket);
        self.lines += &format!("{} {} {}\n", answer.number, answer.added, answer.removed);
        answer
    }

    pub fn lines(&self) -> &str {
        &self.lines
    }

    pub fn count_facts(&self) -> usize {
        words_of(&self.table).len()
    }

    /// All that is printed if the input ends here: last comes the count of facts.
    pub fn print(&self) -> String {
        format!("{}{}\n", self.lines, self.count_facts())
    }
}

/// Program one: a line for each ticket, last the count of facts.
pub fn print_answers(input: &[u8]) -> String {
    let mut run = Run::fresh();
    for ticket in input.chunks(TICKET_LENGTH) {
        run.apply(ticket);
    }
    run.print()
}

/// Program two: the words of an image's facts, one a line; nothing for a refused image.
pub fn print_facts(input: &[u8]) -> String {
    let mut table = [0; MOST_WORDS];
    if read(input, &mut table) != 0 {
        return String::new();
    }
    let line = |word: &u32| format!("{word}\n");
    words_of(&table).iter().map(line).collect()
}

/// The longest text that `read_triples` and `check_triples` take; of a longer one they print nothing.
pub const LONGEST_TAKEN: usize = 1_048_576;

/// `write_triples`: the text of an image's graph; nothing for a refused image.
pub fn print_text(input: &[u8]) -> String {
    let mut table = [0; MOST_WORDS];
    if read(input, &mut table) != 0 {
        return String::new();
    }
    text_of(&facts_of(&table).expect("the table is laid out"))
}

/// `read_triples`: the image of a text's graph; nothing for a refused text.
pub fn print_image(input: &[u8]) -> Vec<u8> {
    if input.len() > LONGEST_TAKEN {
        return Vec::new();
    }
    // After the contents, at most three bytes for each fact.
    let mut output = vec![0; CONTENTS_LENGTH + 3 * MOST_WORDS];
    let number = host_read_triples(input, &mut output);
    // Refused, the image has no length.
    output.truncate((number >> 48) as usize);
    output
}

/// `check_triples`: the answer of reading a text.
pub fn print_answer(input: &[u8]) -> String {
    if input.len() > LONGEST_TAKEN {
        return String::new();
    }
    let answer = read_triples(input, &mut [0; MOST_WORDS]);
    format!("{answer}\n")
}
