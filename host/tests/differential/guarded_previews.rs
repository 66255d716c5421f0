//! Asking and committing across the C interface and on the independent implementation, with guards around
//! every buffer and every run.

use crate::generator::previews::Runs;
use crate::guarded::{assert_alone, assert_untouched_from, lent_bytes, same_call, Guarded, PLAIN};
use crate::independent::host::{host_ask, host_commit};
use crate::independent::table::MOST_WORDS;
use vimelosa_host::{ask_raw, commit_raw};

/// Words to write to that differ from each other. None of them is a fact.
fn lent_words(length: usize) -> Vec<u32> {
    (0..length).map(|place| 0x8000_0000 | place as u32).collect()
}

/// The words of a run from a place on are as they were lent.
fn assert_words_untouched_from(place: usize, run: &[u32]) {
    assert_eq!(run[place..], lent_words(run.len())[place..]);
}

/// How many words a number says of the runs.
fn counts_of(number: u64) -> [usize; 2] {
    [16, 32].map(|bits| usize::from((number >> bits) as u16))
}

/// The number that both give for asking with runs of so many words, and what both leave in these. Image and
/// ticket are left as they were, so is every guard, and so are the runs on a refusal and after what is
/// written.
pub fn same_ask(image: &[u8], ticket: &[u8], lengths: [usize; 2]) -> (u64, Runs) {
    let [mut added, mut removed] = lengths.map(lent_words);
    let expected = host_ask(image, ticket, &mut added, &mut removed);

    let (lent_image, lent_ticket) = (Guarded::of(image), Guarded::of(ticket));
    let [mut lent_added, mut lent_removed] = lengths.map(|length| Guarded::of(&lent_words(length)));
    let number =
        ask_raw(lent_image.inner(), lent_ticket.inner(), lent_added.inner_mut(), lent_removed.inner_mut());

    assert_eq!(number, expected, "{ticket:02x?} with runs of {lengths:?} words on {image:02x?}");
    lent_image.assert_holds(image);
    lent_ticket.assert_holds(ticket);
    lent_added.assert_holds(&added);
    lent_removed.assert_holds(&removed);
    let [come, go] = counts_of(number);
    assert_words_untouched_from(come, &added);
    assert_words_untouched_from(go, &removed);
    match number as u16 {
        0 => assert_eq!(number >> 48, 0, "{number:#x}"),
        _ => assert_alone(number, &[&[12, 11, 3], PLAIN.refusals, &[13]].concat()),
    }
    (number, [added, removed])
}

/// The number that both give for committing the runs, and the output that both leave. All that is read is
/// left as it was, so is every guard, and so is the output on a refusal and after the image.
pub fn same_commit(image: &[u8], ticket: &[u8], runs: &Runs, output_length: usize) -> (u64, Vec<u8>) {
    let [added, removed] = runs;
    let mut output = lent_bytes(output_length);
    let expected = host_commit(image, ticket, added, removed, &mut output);

    let (lent_image, lent_ticket) = (Guarded::of(image), Guarded::of(ticket));
    let (lent_added, lent_removed) = (Guarded::of(added), Guarded::of(removed));
    let mut lent_output = Guarded::of(&lent_bytes(output_length));
    let number = commit_raw(
        lent_image.inner(),
        lent_ticket.inner(),
        lent_added.inner(),
        lent_removed.inner(),
        lent_output.inner_mut(),
    );

    assert_eq!(number, expected, "{ticket:02x?} and {runs:x?} on {image:02x?}");
    lent_image.assert_holds(image);
    lent_ticket.assert_holds(ticket);
    lent_added.assert_holds(added);
    lent_removed.assert_holds(removed);
    lent_output.assert_holds(&output);
    assert_untouched_from((number >> 48) as usize, &output);
    if number as u16 != 0 {
        assert_alone(number, &[&[12, 11, 3], PLAIN.refusals, &[18, 13]].concat());
    }
    (number, output)
}

/// What asking writes with runs that are long enough, cut to the words written.
pub fn asked_runs(image: &[u8], ticket: &[u8]) -> Runs {
    let (number, [mut added, mut removed]) = same_ask(image, ticket, [MOST_WORDS; 2]);
    let [come, go] = counts_of(number);
    added.truncate(come);
    removed.truncate(go);
    [added, removed]
}

/// Asks and commits what is written, which gives and leaves what the single call does.
pub fn same_in_two(image: &[u8], ticket: &[u8], output_length: usize) -> (u64, Vec<u8>) {
    let runs = asked_runs(image, ticket);
    let committed = same_commit(image, ticket, &runs, output_length);
    assert_eq!(committed, same_call(image, ticket, output_length), "{ticket:02x?} on {image:02x?}");
    committed
}
