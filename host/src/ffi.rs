//! The functions of the proved library that cross the C interface, and all `unsafe` code of this package.
//! Those that run tickets, and the check, are here, the others in the files below.

mod preview;
mod triples;

pub use preview::{ask_raw, commit_raw};
pub use triples::{read_triples_raw, write_triples_raw};

// In Rattle each parameter is a slice, which passes as a pointer and then a length.
extern "C" {
    fn vimelosa_apply(
        image: *const u8,
        image_length: usize,
        ticket: *const u8,
        ticket_length: usize,
        output: *mut u8,
        output_length: usize,
    ) -> u64;

    fn vimelosa_apply_list(
        image: *const u8,
        image_length: usize,
        tickets: *const u8,
        tickets_length: usize,
        answers: *mut u8,
        answers_length: usize,
        output: *mut u8,
        output_length: usize,
    ) -> u64;

    fn vimelosa_apply_operator(
        image: *const u8,
        image_length: usize,
        ticket: *const u8,
        ticket_length: usize,
        output: *mut u8,
        output_length: usize,
    ) -> u64;

    fn vimelosa_apply_operator_list(
        image: *const u8,
        image_length: usize,
        tickets: *const u8,
        tickets_length: usize,
        answers: *mut u8,
        answers_length: usize,
        output: *mut u8,
        output_length: usize,
    ) -> u64;

    fn vimelosa_check(image: *const u8, image_length: usize) -> u64;
}

/// The host call, with its number as it comes: the answer, the facts added, the facts removed and the length
/// of the image written, 16 bits each, lowest first. On a refusal the output is as it was.
///
/// ```
/// use vimelosa_host::{call_raw, Graph};
///
/// let fresh = Graph::fresh();
/// let mut output = [0; 72];
/// let number = call_raw(fresh.image(), &[1, 1, 2, 0, 0], &mut output);
/// assert_eq!([0, 16, 32, 48].map(|bits| number >> bits & 0xffff), [0, 2, 0, 72]);
///
/// let refused = call_raw(fresh.image(), &[1, 7, 2, 0, 0], &mut output);
/// assert_eq!(refused, 6);
/// ```
#[must_use = "whether the call was refused is told here alone"]
pub fn call_raw(image: &[u8], ticket: &[u8], output: &mut [u8]) -> u64 {
    // SAFETY: each pointer goes with the length of its slice, and the slices outlive the call. The library
    // keeps no pointer and writes only within `output`, which overlaps neither other slice since it is lent
    // as `&mut`. The function's contract has no `requires`.
    unsafe {
        vimelosa_apply(
            image.as_ptr(),
            image.len(),
            ticket.as_ptr(),
            ticket.len(),
            output.as_mut_ptr(),
            output.len(),
        )
    }
}

/// The host call for a list of tickets, five bytes each, with its number as it comes: the answer, the tickets
/// accepted, the tickets refused and the length of the image written, 16 bits each, lowest first. On a
/// refusal of the call the answers and the output are as they were.
///
/// ```
/// use vimelosa_host::{call_list_raw, Graph};
///
/// let fresh = Graph::fresh();
/// let (mut answers, mut output) = ([99; 3], [0; 72]);
/// let tickets = [1, 1, 2, 0, 0, 1, 7, 2, 0, 0];
/// let number = call_list_raw(fresh.image(), &tickets, &mut answers, &mut output);
/// assert_eq!([0, 16, 32, 48].map(|bits| number >> bits & 0xffff), [0, 1, 1, 72]);
/// assert_eq!(answers, [0, 6, 99]);
/// ```
#[must_use = "whether the call was refused is told here alone"]
pub fn call_list_raw(image: &[u8], tickets: &[u8], answers: &mut [u8], output: &mut [u8]) -> u64 {
    // SAFETY: each pointer goes with the length of its slice, and the slices outlive the call. The library
    // keeps no pointer and writes only within `answers` and `output`, which overlap no other slice since they
    // are lent as `&mut`. The function's contract has no `requires`.
    unsafe {
        vimelosa_apply_list(
            image.as_ptr(),
            image.len(),
            tickets.as_ptr(),
            tickets.len(),
            answers.as_mut_ptr(),
            answers.len(),
            output.as_mut_ptr(),
            output.len(),
        )
    }
}

/// The host call for an operator's ticket, with its number as it comes, of the same parts as [`call_raw`]'s.
/// A ticket of another kind than 3, 4, 9 and 10 is refused with 17 if none of 4 to 7 holds of it; with one of
/// these kinds the call does what [`call_raw`] does.
///
/// ```
/// use vimelosa_host::{call_operator_raw, call_raw, Graph};
///
/// let fresh = Graph::fresh();
/// let (mut output, mut other) = ([0; 72], [0; 72]);
/// let number = call_operator_raw(fresh.image(), &[1, 3, 4, 0, 0], &mut output);
/// assert_eq!(number, call_raw(fresh.image(), &[1, 3, 4, 0, 0], &mut other));
///
/// // A class is not for operators; the output is as it was. An unused byte is looked at first.
/// assert_eq!(call_operator_raw(fresh.image(), &[1, 1, 2, 0, 0], &mut output), 17);
/// assert_eq!(output, other);
/// assert_eq!(call_operator_raw(fresh.image(), &[1, 1, 2, 9, 0], &mut output), 7);
/// ```
#[must_use = "whether the call was refused is told here alone"]
pub fn call_operator_raw(image: &[u8], ticket: &[u8], output: &mut [u8]) -> u64 {
    // SAFETY: as in `call_raw`: the same parameters, and no `requires` in this contract either.
    unsafe {
        vimelosa_apply_operator(
            image.as_ptr(),
            image.len(),
            ticket.as_ptr(),
            ticket.len(),
            output.as_mut_ptr(),
            output.len(),
        )
    }
}

/// The host call for a list of operators' tickets, five bytes each, with its number as it comes, of the same
/// parts as [`call_list_raw`]'s. Each ticket gets what [`call_operator_raw`] would give it; whatever the
/// tickets are, the facts of other kinds than 3, 4, 9 and 10 are the same before and after.
///
/// ```
/// use vimelosa_host::{call_operator_list_raw, Graph};
///
/// let fresh = Graph::fresh();
/// let (mut answers, mut output) = ([99; 3], [0; 72]);
/// let tickets = [1, 3, 4, 0, 0, 1, 1, 2, 0, 0];
/// let number = call_operator_list_raw(fresh.image(), &tickets, &mut answers, &mut output);
/// assert_eq!([0, 16, 32, 48].map(|bits| number >> bits & 0xffff), [0, 1, 1, 72]);
/// assert_eq!(answers, [0, 17, 99]);
/// ```
#[must_use = "whether the call was refused is told here alone"]
pub fn call_operator_list_raw(image: &[u8], tickets: &[u8], answers: &mut [u8], output: &mut [u8]) -> u64 {
    // SAFETY: as in `call_list_raw`: the same parameters, and no `requires` in this contract either.
    unsafe {
        vimelosa_apply_operator_list(
            image.as_ptr(),
            image.len(),
            tickets.as_ptr(),
            tickets.len(),
            answers.as_mut_ptr(),
            answers.len(),
            output.as_mut_ptr(),
            output.len(),
        )
    }
}

/// The check of an image, with its number as it comes: the answer of reading it, and for answer 3 the place
/// of the first rule that its graph breaks, 16 bits each, lowest first; the upper 32 bits are 0.
///
/// ```
/// use vimelosa_host::{check_raw, Graph};
///
/// assert_eq!(check_raw(Graph::fresh().image()), 0);
/// assert_eq!(check_raw(&[]), 12);
/// ```
#[must_use]
pub fn check_raw(image: &[u8]) -> u64 {
    // SAFETY: the pointer goes with the length of its slice, which outlives the call. The library keeps no
    // pointer and writes nowhere. The function's contract has no `requires`.
    unsafe { vimelosa_check(image.as_ptr(), image.len()) }
}
