//! Operators' tickets, by Ask 5 of document 02. Of kinds 3, 4, 9 and 10 they do what they do in the plain
//! calls; every other kind is refused. The refusals in their order: 1 to 7, 17, 8, 9, 16, 10, 11.

use super::fact::{INDIVIDUAL, LITERAL, MEMBER, VALUE};
use super::list::{apply_list_by, ListAnswer};
use super::ticket::{apply_by, asked_by, Answer, Asked};

/// Runs one operator's ticket. A refused one leaves the table as it was.
pub fn apply_operator(table: &mut [u32], ticket: &[u8]) -> Answer {
    apply_by(asked_by_operator, table, ticket)
}

/// Runs operators' tickets in turn and writes the number of each to its answer byte. Refusals 1, 2, 3, 14.
pub fn apply_operator_list(table: &mut [u32], list: &[u8], answers: &mut [u8]) -> ListAnswer {
    apply_list_by(apply_operator, table, list, answers)
}

/// What the bytes of an operator's ticket ask, or refusal 4, 5, 6, 7 or 17.
fn asked_by_operator(ticket: &[u8]) -> Result<Asked, u8> {
    let asked = asked_by(ticket)?;
    match ticket[1] {
        INDIVIDUAL | LITERAL | MEMBER | VALUE => Ok(asked),
        _ => Err(17),
    }
}
