//! A list of tickets on one table.

use super::table::consistent_facts_of;
use super::ticket::{apply, TicketCall};

/// A list is cut into records of so many bytes; what is left at the end is one ticket.
pub const TICKET_LENGTH: usize = 5;

/// The answer, and how many tickets were accepted and refused.
#[derive(Clone, Copy, PartialEq, Eq, Debug)]
pub struct ListAnswer {
    pub number: u8,
    pub accepted: usize,
    pub refused: usize,
}

/// A call that runs a list of tickets on a table.
pub type ListCall = fn(&mut [u32], &[u8], &mut [u8]) -> ListAnswer;

/// Runs the tickets in turn and writes the number of each to its answer byte. Refusals 1, 2, 3, 14.
pub fn apply_list(table: &mut [u32], list: &[u8], answers: &mut [u8]) -> ListAnswer {
    apply_list_by(apply, table, list, answers)
}

/// Runs the tickets in turn, each by the ticket call, and writes the number of each to its answer byte.
pub fn apply_list_by(call: TicketCall, table: &mut [u32], list: &[u8], answers: &mut [u8]) -> ListAnswer {
    let tickets = list.chunks(TICKET_LENGTH);
    let few_answers = (tickets.len() > answers.len()).then_some(14);
    let refusal = consistent_facts_of(table).err().or(few_answers);
    if let Some(number) = refusal {
        return ListAnswer { number, accepted: 0, refused: 0 };
    }
    let count = tickets.len();
    for (ticket, answer) in tickets.zip(answers.iter_mut()) {
        *answer = call(table, ticket).number;
    }
    let accepted = answers[..count].iter().filter(|number| **number == 0);
    let accepted = accepted.count();
    ListAnswer { number: 0, accepted, refused: count - accepted }
}
