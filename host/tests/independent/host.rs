//! The calls across the C interface: one ticket and a list of tickets, plain and operators', one ticket asked
//! about and committed, the check, a text written, a text read.

use super::image::{facts_in, read, write};
use super::list::{apply_list, ListCall, TICKET_LENGTH};
use super::operator::{apply_operator, apply_operator_list};
use super::preview::{ask, commit};
use super::rules::{first_broken, place_of};
use super::table::MOST_WORDS;
use super::ticket::{apply, Answer};
use super::triples::{facts_in_text, read_triples, write_triples};

/// The counts of a list call have 16 bits each, so a list has at most so many tickets.
pub const MOST_TICKETS: usize = 65_535;

/// Reads the image into 2,048 words, applies the ticket, writes the output; refuses as these steps do in this
/// order. The number holds the answer, the facts added, the facts removed and the image's length, 16 bits
/// each, lowest first, the last three 0 on refusal.
pub fn host_call(image: &[u8], ticket: &[u8], output: &mut [u8]) -> u64 {
    host_call_by(|table| apply(table, ticket), image, output)
}

/// As `host_call`, with an operator's ticket.
pub fn host_operator_call(image: &[u8], ticket: &[u8], output: &mut [u8]) -> u64 {
    host_call_by(|table| apply_operator(table, ticket), image, output)
}

/// As `host_call`, with the ticket committed: 18, if the runs are out of date, comes after its other refusals
/// and before 13 of the output.
pub fn host_commit(image: &[u8], ticket: &[u8], added: &[u32], removed: &[u32], output: &mut [u8]) -> u64 {
    host_call_by(|table| commit(table, ticket, added, removed), image, output)
}

/// The steps of `host_call`, the ticket run on the words by the call.
fn host_call_by(call: impl FnOnce(&mut [u32]) -> Answer, image: &[u8], output: &mut [u8]) -> u64 {
    let mut table = match table_of(image) {
        Ok(table) => table,
        Err(refusal) => return packed(refusal, 0, 0, 0),
    };
    let answer = call(&mut table);
    if answer.number != 0 {
        return packed(answer.number, 0, 0, 0);
    }
    match write(&table, output) {
        (0, length) => packed(0, answer.added, answer.removed, length),
        (refusal, _) => packed(refusal, 0, 0, 0),
    }
}

/// The 2,048 words into which the image is read, or refusal 12, 11 or 3.
fn table_of(image: &[u8]) -> Result<[u32; MOST_WORDS], u8> {
    let mut table = [0; MOST_WORDS];
    match read(image, &mut table) {
        0 => Ok(table),
        refusal => Err(refusal),
    }
}

/// Reads the image into 2,048 words and asks what the ticket would add and remove, which it writes to the
/// runs. Refusals 12, 11, 3, then those of asking. The number holds the answer, the words added, the words
/// removed and 0, 16 bits each, lowest first, the last three 0 on refusal.
pub fn host_ask(image: &[u8], ticket: &[u8], added: &mut [u32], removed: &mut [u32]) -> u64 {
    match table_of(image) {
        Ok(table) => {
            let answer = ask(&table, ticket, added, removed);
            packed(answer.number, answer.added, answer.removed, 0)
        }
        Err(refusal) => packed(refusal, 0, 0, 0),
    }
}

/// Reads the image into 2,048 words, runs the tickets on them in turn, writes each ticket's number to its
/// answer byte and what is left to the output. Refusals 12, 11, 3, 14, 13; refused, it leaves every answer
/// byte and every byte of the output as it was. The number holds the answer, the tickets accepted, the
/// tickets refused and the image's length, 16 bits each, lowest first, the last three 0 on refusal.
pub fn host_list_call(image: &[u8], tickets: &[u8], answers: &mut [u8], output: &mut [u8]) -> u64 {
    host_list_call_by(apply_list, image, tickets, answers, output)
}

/// As `host_list_call`, with operators' tickets.
pub fn host_operator_list_call(image: &[u8], tickets: &[u8], answers: &mut [u8], output: &mut [u8]) -> u64 {
    host_list_call_by(apply_operator_list, image, tickets, answers, output)
}

/// The steps of `host_list_call`, the tickets run by the list call.
fn host_list_call_by(
    call: ListCall,
    image: &[u8],
    tickets: &[u8],
    answers: &mut [u8],
    output: &mut [u8],
) -> u64 {
    let mut table = match table_of(image) {
        Ok(table) => table,
        Err(refusal) => return packed(refusal, 0, 0, 0),
    };
    let count = tickets.chunks(TICKET_LENGTH).len();
    if count > answers.len() || count > MOST_TICKETS {
        return packed(14, 0, 0, 0);
    }
    let mut numbers = vec![0; count];
    let answer = call(&mut table, tickets, &mut numbers);
    assert_eq!(answer.number, 0, "the table is consistent, and each ticket has its byte");
    match write(&table, output) {
        (0, length) => {
            answers[..count].copy_from_slice(&numbers);
            packed(0, answer.accepted, answer.refused, length)
        }
        (refusal, _) => packed(refusal, 0, 0, 0),
    }
}

/// The answer of reading the image into 2,048 words; for 3 also, in the next 16 bits, the place of the first
/// rule that the image's graph breaks, counted from 1.
pub fn host_check(image: &[u8]) -> u64 {
    match read(image, &mut [0; MOST_WORDS]) {
        3 => {
            let graph = facts_in(image).expect("the image is well formed");
            let rule = first_broken(&graph).expect("the graph is not consistent");
            packed(3, place_of(rule), 0, 0)
        }
        answer => packed(answer, 0, 0, 0),
    }
}

/// Reads the image into 2,048 words and writes the text of its graph to the output. Refusals 12, 11, 3, 13.
/// The number holds the answer in its lowest 16 bits and the text's length, 0 on refusal, in those above
/// them.
pub fn host_write_triples(image: &[u8], output: &mut [u8]) -> u64 {
    match table_of(image) {
        Ok(table) => {
            let (answer, length) = write_triples(&table, output);
            u64::from(answer) | (length as u64) << 16
        }
        Err(refusal) => refusal.into(),
    }
}

/// Reads the text into 2,048 words and writes the image of its graph to the output. Refusals 15, 11, 3, 13.
/// The number holds the answer; for 3 the place of the first rule that the text's graph breaks, counted from
/// 1; 0; and the image's length, 0 on refusal: 16 bits each, lowest first.
pub fn host_read_triples(text: &[u8], output: &mut [u8]) -> u64 {
    let mut table = [0; MOST_WORDS];
    match read_triples(text, &mut table) {
        0 => {
            let (answer, length) = write(&table, output);
            packed(answer, 0, 0, length)
        }
        3 => {
            let graph = facts_in_text(text).expect("every line is inside the profile");
            let rule = first_broken(&graph).expect("the graph is not consistent");
            packed(3, place_of(rule), 0, 0)
        }
        refusal => packed(refusal, 0, 0, 0),
    }
}

/// Four numbers, 16 bits each, lowest first.
pub fn packed(number: u8, added: usize, removed: usize, length: usize) -> u64 {
    let parts = [length, removed, added, usize::from(number)];
    parts.iter().fold(0, |all, part| {
        let part = u16::try_from(*part).expect("each part has 16 bits");
        all << 16 | u64::from(part)
    })
}
