//! The two calls for one ticket, of which the first shows what the second does.

// A run is a slice of words, which passes as a pointer and then a length in words.
extern "C" {
    fn vimelosa_ask(
        image: *const u8,
        image_length: usize,
        ticket: *const u8,
        ticket_length: usize,
        added: *mut u32,
        added_length: usize,
        removed: *mut u32,
        removed_length: usize,
    ) -> u64;

    fn vimelosa_commit(
        image: *const u8,
        image_length: usize,
        ticket: *const u8,
        ticket_length: usize,
        added: *const u32,
        added_length: usize,
        removed: *const u32,
        removed_length: usize,
        output: *mut u8,
        output_length: usize,
    ) -> u64;
}

/// Asks what a ticket would do, with the call's number as it comes: the answer, the facts that would be
/// added, those that would be removed and 0, 16 bits each, lowest first. Their words go to the front of each
/// run, ascending; the words after them, and on a refusal all of them, are as they were. A run shorter than
/// the words to go to it is refused with 13; one of [`MOST_FACTS`](crate::MOST_FACTS) words never is.
///
/// ```
/// use vimelosa_host::{ask_raw, Graph, Ticket};
///
/// let mut graph = Graph::fresh();
/// graph.apply(Ticket::insert_class(2))?;
/// let (ticket, mut removed) = (Ticket::delete_class(2).bytes(), [7; 3]);
/// let number = ask_raw(graph.image(), &ticket, &mut [], &mut removed);
/// assert_eq!([0, 16, 32, 48].map(|bits| number >> bits & 0xffff), [0, 0, 2, 0]);
/// assert_eq!(removed, [0x01_02_00_00, 0x05_02_00_00, 7]);
///
/// assert_eq!(ask_raw(graph.image(), &ticket, &mut [], &mut removed[..1]), 13);
/// # Ok::<(), vimelosa_host::Refusal>(())
/// ```
#[must_use = "whether the call was refused is told here alone"]
pub fn ask_raw(image: &[u8], ticket: &[u8], added: &mut [u32], removed: &mut [u32]) -> u64 {
    // SAFETY: each pointer goes with the length of its slice, that of a run in words, for which a `[u32]` is
    // aligned, and the slices outlive the call. The library keeps no pointer and writes only within `added`
    // and `removed`, which overlap no other slice since they are lent as `&mut`. The function's contract has
    // no `requires`.
    unsafe {
        vimelosa_ask(
            image.as_ptr(),
            image.len(),
            ticket.as_ptr(),
            ticket.len(),
            added.as_mut_ptr(),
            added.len(),
            removed.as_mut_ptr(),
            removed.len(),
        )
    }
}

/// Commits a ticket that was asked about, with the call's number as it comes, of the same parts as
/// [`call_raw`](crate::call_raw)'s. The runs are what [`ask_raw`] wrote, cut to the words written; if they
/// are not exactly what it would write now, the ticket is refused with 18. On a refusal the output is as it
/// was.
///
/// ```
/// use vimelosa_host::{call_raw, commit_raw, Graph};
///
/// let fresh = Graph::fresh();
/// let (ticket, added) = ([1, 1, 2, 0, 0], [0x01_02_00_00, 0x05_02_00_00]);
/// let (mut output, mut other) = ([0; 72], [0; 72]);
/// let number = commit_raw(fresh.image(), &ticket, &added, &[], &mut output);
/// assert_eq!(number, call_raw(fresh.image(), &ticket, &mut other));
/// assert_eq!(output, other);
///
/// // Once the class is there it would not come again: what was shown is out of date.
/// assert_eq!(commit_raw(&output, &ticket, &added, &[], &mut other), 18);
/// assert_eq!(commit_raw(&output, &ticket, &[], &[], &mut other) & 0xffff, 0);
/// ```
#[must_use = "whether the call was refused is told here alone"]
pub fn commit_raw(image: &[u8], ticket: &[u8], added: &[u32], removed: &[u32], output: &mut [u8]) -> u64 {
    // SAFETY: each pointer goes with the length of its slice, that of a run in words, for which a `[u32]` is
    // aligned, and the slices outlive the call. The library keeps no pointer and writes only within `output`,
    // which overlaps no other slice since it is lent as `&mut`. The function's contract has no `requires`.
    unsafe {
        vimelosa_commit(
            image.as_ptr(),
            image.len(),
            ticket.as_ptr(),
            ticket.len(),
            added.as_ptr(),
            added.len(),
            removed.as_ptr(),
            removed.len(),
            output.as_mut_ptr(),
            output.len(),
        )
    }
}
