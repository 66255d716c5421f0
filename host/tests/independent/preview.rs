//! A ticket in two calls, by Ask 6 of document 02. Asking writes to two lent runs the words that the ticket
//! would add and remove; committing is handed them and runs the ticket only if they are these words still.
//! The refusals in their order are those of a ticket, then 13 when asking and 18 when committing.

use super::ticket::{apply, Answer};
use std::collections::BTreeSet;

/// What a ticket would do to a table: the single call's answer, and the words that it would add and remove,
/// ascending. A refused ticket has none.
struct Preview {
    answer: Answer,
    added: Vec<u32>,
    removed: Vec<u32>,
}

impl Preview {
    /// By the single call on a copy of the table.
    fn of(table: &[u32], ticket: &[u8]) -> Preview {
        let mut after = table.to_vec();
        let answer = apply(&mut after, ticket);
        let (old, new) = (words_of(table), words_of(&after));
        let beyond = |one: &BTreeSet<u32>, other: &BTreeSet<u32>| one.difference(other).copied().collect();
        Preview { answer, added: beyond(&new, &old), removed: beyond(&old, &new) }
    }

    fn is_accepted(&self) -> bool {
        self.answer.number == 0
    }

    /// Refusal 13: a run has no room for its words.
    fn is_beyond(&self, added: &[u32], removed: &[u32]) -> bool {
        added.len() < self.added.len() || removed.len() < self.removed.len()
    }
}

/// The words of a table that are not 0.
fn words_of(table: &[u32]) -> BTreeSet<u32> {
    table.iter().copied().filter(|word| *word != 0).collect()
}

/// Answers as the single call would and writes the words that would come and go to the front of each run.
/// Refused, it writes nothing.
pub fn ask(table: &[u32], ticket: &[u8], added: &mut [u32], removed: &mut [u32]) -> Answer {
    let preview = Preview::of(table, ticket);
    if preview.is_accepted() && preview.is_beyond(added, removed) {
        return Answer::refused(13);
    }
    added[..preview.added.len()].copy_from_slice(&preview.added);
    removed[..preview.removed.len()].copy_from_slice(&preview.removed);
    preview.answer
}

/// Runs the ticket as the single call does, if the runs are exactly what it would do to the table now. A
/// ticket that is refused now gets its own refusal.
pub fn commit(table: &mut [u32], ticket: &[u8], added: &[u32], removed: &[u32]) -> Answer {
    let preview = Preview::of(table, ticket);
    let is_now = preview.added == added && preview.removed == removed;
    if preview.is_accepted() && !is_now {
        return Answer::refused(18);
    }
    apply(table, ticket)
}
