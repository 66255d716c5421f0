//! What the program `run_calls` prints for a script, by the calls of this implementation. The commands are
//! those that the head of crates/run_calls/src/main.rt describes.

use super::image::{body, read, write};
use super::list::{apply_list, ListCall};
use super::operator::{apply_operator, apply_operator_list};
use super::preview::{ask, commit};
use super::rules::{first_broken, name_of};
use super::table::{check, facts_of, fresh, lookup};
use super::ticket::{apply, Answer, TicketCall};

/// The most words of a table, output bytes, answer bytes and words of a run that a script can lend.
const WORDS: usize = 2049;
const OUTPUT: usize = 8200;
const ANSWERS: usize = 2048;
const RUN: usize = 2048;

/// What the lines of a script print.
pub fn run_script(script: &str) -> String {
    let mut state = State { table: Vec::new(), copy: vec![0; WORDS] };
    let lines = script.lines().filter(|line| !line.is_empty() && !line.starts_with('#'));
    lines.map(|line| state.run_line(line)).collect()
}

/// What belongs to a command.
struct Given {
    bytes: Vec<u8>,
}

impl Given {
    /// The bytes of hexadecimal digits, with blanks between.
    fn of(text: &str) -> Given {
        let digits: Vec<u32> =
            text.chars().filter(|x| *x != ' ').map(|x| x.to_digit(16).unwrap_or(0)).collect();
        Given { bytes: digits.chunks_exact(2).map(|pair| (16 * pair[0] + pair[1]) as u8).collect() }
    }

    /// The number of the first two bytes, and the bytes after them.
    fn number_and_rest(&self) -> (usize, &[u8]) {
        split_number(&self.bytes)
    }

    /// How many words the added run and the removed run have, and the bytes after these two numbers.
    fn runs_and_rest(&self) -> (usize, usize, &[u8]) {
        let (added, rest) = self.number_and_rest();
        let (removed, rest) = split_number(rest);
        (added.min(RUN), removed.min(RUN), rest)
    }
}

/// The number of the first two bytes, and the bytes after them; 0 and none if there are not two.
fn split_number(bytes: &[u8]) -> (usize, &[u8]) {
    match bytes {
        [high, low, rest @ ..] => (256 * usize::from(*high) + usize::from(*low), rest),
        _ => (0, &[]),
    }
}

/// The words of bytes, highest byte first.
fn words_of(bytes: &[u8]) -> Vec<u32> {
    let word = |four: &[u8]| four.iter().fold(0, |word, byte| word << 8 | u32::from(*byte));
    bytes.chunks_exact(4).map(word).collect()
}

/// Bytes in hexadecimal, a blank before each.
fn shown(bytes: &[u8]) -> String {
    bytes.iter().map(|byte| format!(" {byte:02x}")).collect()
}

/// Words in hexadecimal, a blank before each.
fn shown_words(words: &[u32]) -> String {
    words.iter().map(|word| format!(" {word:08x}")).collect()
}

/// The number, added and removed of an answer, a blank before each.
fn shown_answer(answer: Answer) -> String {
    format!(" {} {} {}", answer.number, answer.added, answer.removed)
}

/// The table, and the copy of its words.
struct State {
    table: Vec<u32>,
    copy: Vec<u32>,
}

impl State {
    fn run_line(&mut self, line: &str) -> String {
        let (name, rest) = line.split_once(' ').unwrap_or((line, ""));
        match self.run(name, &Given::of(rest)) {
            Some(printed) => format!("{name}{printed}\n"),
            None => "?\n".to_string(),
        }
    }

    /// What a command prints after its name; none if it is no command.
    fn run(&mut self, name: &str, given: &Given) -> Option<String> {
        Some(match name {
            "fresh" => format!(" {}", fresh(&mut self.table)),
            "check" => self.check(),
            "lookup" => self.lookup(&given.bytes),
            "apply" => self.apply(apply, &given.bytes),
            "operator" => self.apply(apply_operator, &given.bytes),
            "ask" => self.ask(given),
            "commit" => self.commit(given),
            "list" | "each" => self.list(apply_list, given),
            "operators" => self.list(apply_operator_list, given),
            "records" if given.bytes.len() != 27 => " ?".to_string(),
            "records" => self.list(apply_list, given),
            "write" => self.write(given),
            "read" => format!(" {}", read(&given.bytes, &mut self.table)),
            "body" => self.body(given),
            "damage" => self.damage(&given.bytes),
            "facts" => format!(" {}", self.words().len()),
            "words" => shown_words(self.words()),
            "same" => format!(" {}", u8::from(self.copy.starts_with(&self.table))),
            _ => return self.change(name, given),
        })
    }

    /// The commands that print only their name.
    fn change(&mut self, name: &str, given: &Given) -> Option<String> {
        match name {
            "table" => {
                let (number, rest) = given.number_and_rest();
                self.table = words_of(rest);
                let last = self.table.last().copied().unwrap_or(0);
                self.table.resize(number.min(WORDS), last);
            }
            "keep" => self.copy[..self.table.len()].copy_from_slice(&self.table),
            "back" => self.restore(),
            _ => return None,
        }
        Some(String::new())
    }

    fn restore(&mut self) {
        let length = self.table.len();
        self.table.copy_from_slice(&self.copy[..length]);
    }

    /// The words up to the last that is not 0.
    fn words(&self) -> &[u32] {
        let last = self.table.iter().rposition(|word| *word != 0);
        &self.table[..last.map_or(0, |place| place + 1)]
    }

    /// The answer, and after a 3 the first rule that is broken; H1 to H4, E1 and E2 come last.
    fn check(&self) -> String {
        let answer = check(&self.table);
        if answer != 3 {
            return format!(" {answer}");
        }
        let graph = facts_of(&self.table).expect("the table is laid out");
        let first = first_broken(&graph).expect("the table is not consistent");
        format!(" 3 {}", name_of(first))
    }

    fn lookup(&self, bytes: &[u8]) -> String {
        let word = words_of(bytes).first().copied().unwrap_or(0);
        let (answer, present) = lookup(&self.table, word);
        format!(" {answer} {}", u8::from(present))
    }

    fn apply(&mut self, call: TicketCall, ticket: &[u8]) -> String {
        shown_answer(call(&mut self.table, ticket))
    }

    fn ask(&self, given: &Given) -> String {
        let (added, removed, ticket) = given.runs_and_rest();
        let (mut added, mut removed) = (vec![u32::MAX; added], vec![u32::MAX; removed]);
        let answer = ask(&self.table, ticket, &mut added, &mut removed);
        format!("{}{} /{}", shown_answer(answer), shown_words(&added), shown_words(&removed))
    }

    /// Bytes that the words lack count as 0; no byte is left for the ticket then.
    fn commit(&mut self, given: &Given) -> String {
        let (added, removed, rest) = given.runs_and_rest();
        let needed = 4 * (added + removed);
        let mut bytes = rest.to_vec();
        bytes.resize(needed.max(rest.len()), 0);
        let (words, ticket) = bytes.split_at(needed);
        let words = words_of(words);
        let (added, removed) = words.split_at(added);
        shown_answer(commit(&mut self.table, ticket, added, removed))
    }

    fn list(&mut self, call: ListCall, given: &Given) -> String {
        let (room, list) = given.number_and_rest();
        let mut answers = vec![0xff; room.min(ANSWERS)];
        let answer = call(&mut self.table, list, &mut answers);
        format!(" {} {} {}{}", answer.number, answer.accepted, answer.refused, shown(&answers))
    }

    fn write(&self, given: &Given) -> String {
        let mut output = vec![0xff; given.number_and_rest().0.min(OUTPUT)];
        let (answer, length) = write(&self.table, &mut output);
        format!(" {answer} {length}{}", shown(&output))
    }

    fn body(&self, given: &Given) -> String {
        let (number, image) = given.number_and_rest();
        let part = body(image, u8::try_from(number).unwrap_or(0));
        format!(" {}{}", part.len(), shown(part))
    }

    /// How often reading the image with each byte set to each value gives each answer; a 0 for an image that
    /// is not the table's counts as 13, and a refusal that does not leave the copy's words as 14.
    fn damage(&mut self, image: &[u8]) -> String {
        let mut met = [0; 15];
        for place in 0..image.len() {
            for byte in 0..=255 {
                let mut changed = image.to_vec();
                changed[place] = byte;
                let outcome = match read(&changed, &mut self.table) {
                    0 if is_image_of(&changed, &self.table) => 0,
                    0 => 13,
                    answer if self.copy.starts_with(&self.table) => answer,
                    _ => 14,
                };
                met[usize::from(outcome)] += 1;
                self.restore();
            }
        }
        met.map(|count: usize| format!(" {count}")).concat()
    }
}

/// Writing gives this image for the table.
fn is_image_of(image: &[u8], table: &[u32]) -> bool {
    let mut output = vec![0; image.len()];
    write(table, &mut output) == (0, image.len()) && output == image
}
