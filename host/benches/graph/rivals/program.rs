//! Program one over a rival: tickets from standard input on a fresh table, a line for each.

use super::{Answer, Rival, TICKET_LENGTH};
use std::io::{Read, Result, Write};

const BUFFER_LENGTH: usize = 1 << 16;

/// Reads all tickets, prints a line for each and last the count of facts.
pub fn run<R: Rival>(mut input: impl Read, mut output: impl Write) -> Result<()> {
    let mut tickets = Vec::new();
    input.read_to_end(&mut tickets)?;
    let mut table = R::fresh();
    let mut lines = Vec::with_capacity(BUFFER_LENGTH + 64);
    for ticket in tickets.chunks(TICKET_LENGTH) {
        push_line(&mut lines, table.apply(ticket));
        if lines.len() >= BUFFER_LENGTH {
            output.write_all(&lines)?;
            lines.clear();
        }
    }
    push_decimal(&mut lines, table.count_facts());
    lines.push(b'\n');
    output.write_all(&lines)
}

fn push_line(lines: &mut Vec<u8>, answer: Answer) {
    push_decimal(lines, usize::from(answer.number));
    lines.push(b' ');
    push_decimal(lines, answer.added);
    lines.push(b' ');
    push_decimal(lines, answer.removed);
    lines.push(b'\n');
}

fn push_decimal(lines: &mut Vec<u8>, number: usize) {
    if number >= 10 {
        push_decimal(lines, number / 10);
    }
    lines.push(b'0' + (number % 10) as u8);
}
