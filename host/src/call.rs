//! The host calls over bytes that the caller lends, their numbers taken apart.

use crate::ffi::{call_list_raw, call_operator_list_raw, call_operator_raw, call_raw, check_raw};
use crate::image::LONGEST_IMAGE;
use crate::refusal::{INCONSISTENT, SHORT_OUTPUT};
use crate::{Refusal, Rule};

/// How many facts a ticket added and removed.
#[derive(Clone, Copy, PartialEq, Eq, Hash, Debug, Default)]
pub struct Change {
    /// Facts in the new graph and not in the old.
    pub added: u16,
    /// Facts in the old graph and not in the new.
    pub removed: u16,
}

/// An accepted ticket: what it changed, and how long the new image is.
#[derive(Clone, Copy, PartialEq, Eq, Hash, Debug)]
pub struct Applied {
    /// The facts added and removed.
    pub change: Change,
    /// The bytes of the output that hold the new image; those after them are as they were.
    pub length: usize,
}

/// A list of tickets that was run: how many of them were accepted, and how long the new image is.
#[derive(Clone, Copy, PartialEq, Eq, Hash, Debug)]
pub struct AppliedList {
    /// The tickets accepted: the zeros among their answer bytes.
    pub accepted: u16,
    /// The tickets refused.
    pub refused: u16,
    /// The bytes of the output that hold the new image; those after them are as they were.
    pub length: usize,
}

/// A host call for a list: image, tickets, answers and output, and its number as it comes.
type RawListCall = fn(&[u8], &[u8], &mut [u8], &mut [u8]) -> u64;

/// Applies a ticket of any length to an image and writes the new image to the output. The whole image is read
/// and checked first.
///
/// ```
/// use vimelosa_host::{apply_ticket, Graph, Refusal};
///
/// let fresh = Graph::fresh();
/// let mut output = [0; 72];
/// let applied = apply_ticket(fresh.image(), &[1, 1, 2, 0, 0], &mut output)?;
/// assert_eq!((applied.change.added, applied.length), (2, 72));
///
/// let short = &mut output[..71];
/// let refused = apply_ticket(fresh.image(), &[1, 1, 2, 0, 0], short);
/// assert_eq!(refused, Err(Refusal::ShortOutput { needed: 72 }));
/// assert_eq!(apply_ticket(fresh.image(), &[1, 1, 2], short), Err(Refusal::BadLength));
/// # Ok::<(), Refusal>(())
/// ```
///
/// # Errors
///
/// Those of [`check_image`] for the image, 4 to 9, 16, 10, 11 for the ticket ([`Refusal::BadLength`] to
/// [`Refusal::UnknownProperty`], [`Refusal::UnknownClass`], [`Refusal::Clashing`], [`Refusal::TooMany`]),
/// [`Refusal::ShortOutput`] for the output, in this order. The output is then as it was. For the rule of an
/// inconsistent image the image is read once more, for the length of a short output the call is made once
/// more. An output of [`LONGEST_IMAGE`] bytes is never too short.
pub fn apply_ticket(image: &[u8], ticket: &[u8], output: &mut [u8]) -> Result<Applied, Refusal> {
    applied_by(|output| call_raw(image, ticket, output), image, output)
}

/// Applies an operator's ticket of any length to an image and writes the new image to the output. With a kind
/// that is for operators ([`Kind::is_for_operators`](crate::Kind::is_for_operators)) it does what
/// [`apply_ticket`] does.
///
/// ```
/// use vimelosa_host::{apply_operator_ticket, Graph, Refusal};
///
/// let (fresh, mut output) = (Graph::fresh(), [0; 72]);
/// let applied = apply_operator_ticket(fresh.image(), &[1, 3, 4, 0, 0], &mut output)?;
/// assert_eq!((applied.change.added, applied.length), (2, 72));
///
/// // A class is not for operators. This comes before 8, with which Resource is guarded.
/// let refused = apply_operator_ticket(fresh.image(), &[2, 1, 0, 0, 0], &mut output);
/// assert_eq!(refused, Err(Refusal::NotForOperators));
/// # Ok::<(), Refusal>(())
/// ```
///
/// # Errors
///
/// Those of [`check_image`] for the image, 4 to 7, 17, 8, 9, 16, 10, 11 for the ticket (those of
/// [`apply_ticket`], with [`Refusal::NotForOperators`] after [`Refusal::BadIds`]), [`Refusal::ShortOutput`]
/// for the output, in this order and at the cost that [`apply_ticket`] tells. The output is then as it was.
pub fn apply_operator_ticket(image: &[u8], ticket: &[u8], output: &mut [u8]) -> Result<Applied, Refusal> {
    applied_by(|output| call_operator_raw(image, ticket, output), image, output)
}

/// A ticket by a host call, which is given the output and answers its number as it comes.
pub(crate) fn applied_by(
    call: impl Fn(&mut [u8]) -> u64,
    image: &[u8],
    output: &mut [u8],
) -> Result<Applied, Refusal> {
    let [number, added, removed, length] = parts_of(call(output));
    outcome(number, || broken_rule(image), || needed_by(&call))?;
    Ok(Applied { change: Change { added, removed }, length: usize::from(length) })
}

/// Applies tickets of five bytes each to an image, one after the other, and writes the image that they leave
/// to the output. Each ticket's number goes to its answer byte: 0, or its refusal, 4 to 11 or 16. Bytes left
/// over at the end are one ticket, which gets 4. A refused ticket changes nothing and does not refuse the
/// call. The image is read and checked once for all tickets; an output shorter than [`LONGEST_IMAGE`] has the
/// list run twice, since it is tried first.
///
/// ```
/// use vimelosa_host::{apply_list, Graph, Refusal, LONGEST_IMAGE};
///
/// let fresh = Graph::fresh();
/// let (mut answers, mut output) = ([0; 2], [0; LONGEST_IMAGE]);
/// let tickets = [1, 1, 2, 0, 0, 1, 9, 2, 0, 0];
/// let applied = apply_list(fresh.image(), &tickets, &mut answers, &mut output)?;
/// assert_eq!((applied.accepted, applied.refused, applied.length), (1, 1, 72));
/// assert_eq!(answers, [0, 10]);
///
/// let few = apply_list(fresh.image(), &tickets, &mut answers[..1], &mut output);
/// assert_eq!(few, Err(Refusal::FewAnswers));
/// # Ok::<(), Refusal>(())
/// ```
///
/// # Errors
///
/// Those of [`check_image`] for the image, [`Refusal::FewAnswers`] for fewer answer bytes than tickets or
/// more than 65,535 tickets, [`Refusal::ShortOutput`] for the output, in this order and at the cost that
/// [`apply_ticket`] tells. The answers and the output are then as they were.
pub fn apply_list(
    image: &[u8],
    tickets: &[u8],
    answers: &mut [u8],
    output: &mut [u8],
) -> Result<AppliedList, Refusal> {
    listed_by(call_list_raw, image, tickets, answers, output)
}

/// Applies operators' tickets of five bytes each to an image, one after the other, and writes the image that
/// they leave to the output. Each ticket's number goes to its answer byte: 0, or its refusal, 4 to 11, 16 or
/// 17; all else is as [`apply_list`] has it. Accepted or not, the tickets leave every fact of a kind that is
/// not for operators ([`Kind::is_for_operators`](crate::Kind::is_for_operators)) and add none.
///
/// ```
/// use vimelosa_host::{apply_operator_list, Graph, Refusal, LONGEST_IMAGE};
///
/// let fresh = Graph::fresh();
/// let (mut answers, mut output) = ([0; 3], [0; LONGEST_IMAGE]);
/// let tickets = [1, 3, 4, 0, 0, 1, 1, 2, 0, 0, 1, 9, 4, 2, 0];
/// let applied = apply_operator_list(fresh.image(), &tickets, &mut answers, &mut output)?;
/// assert_eq!((applied.accepted, applied.refused, applied.length), (1, 2, 72));
///
/// // The class is not made, and so the member's is unknown.
/// assert_eq!(answers, [0, 17, 16]);
/// # Ok::<(), Refusal>(())
/// ```
///
/// # Errors
///
/// Those of [`apply_list`], in its order. The answers and the output are then as they were.
pub fn apply_operator_list(
    image: &[u8],
    tickets: &[u8],
    answers: &mut [u8],
    output: &mut [u8],
) -> Result<AppliedList, Refusal> {
    listed_by(call_operator_list_raw, image, tickets, answers, output)
}

fn listed_by(
    call: RawListCall,
    image: &[u8],
    tickets: &[u8],
    answers: &mut [u8],
    output: &mut [u8],
) -> Result<AppliedList, Refusal> {
    let [number, accepted, refused, length] = parts_of(call(image, tickets, answers, output));
    let again = |long_enough: &mut [u8]| {
        let mut aside = vec![0; answers.len()];
        call(image, tickets, &mut aside, long_enough)
    };
    outcome(number, || broken_rule(image), || needed_by(again))?;
    Ok(AppliedList { accepted, refused, length: usize::from(length) })
}

/// Checks whether an image can be read.
///
/// ```
/// use vimelosa_host::{check_image, Graph, Refusal, Rule, Ticket};
///
/// let mut graph = Graph::fresh();
/// graph.apply(Ticket::insert_literal(2))?;
/// let mut image = graph.image().to_vec();
/// assert_eq!(check_image(&image), Ok(()));
/// assert_eq!(check_image(&image[1..]), Err(Refusal::Malformed));
///
/// // The last byte is the literal. With id 0 it would be Resource, which is a class.
/// image[69] = 0;
/// assert_eq!(check_image(&image), Err(Refusal::Inconsistent { rule: Rule::H2 }));
/// # Ok::<(), Refusal>(())
/// ```
///
/// # Errors
///
/// [`Refusal::Malformed`], [`Refusal::TooMany`] if it has more than 2,048 facts, or
/// [`Refusal::Inconsistent`], in this order.
pub fn check_image(image: &[u8]) -> Result<(), Refusal> {
    let [number, place, ..] = parts_of(check_raw(image));
    outcome(number, || rule_at(place), || unreachable!("a check has no output"))
}

/// Nothing for answer 0, the refusal for another; what the number does not tell is asked for.
pub(crate) fn outcome(
    number: u16,
    rule: impl FnOnce() -> Rule,
    needed: impl FnOnce() -> usize,
) -> Result<(), Refusal> {
    match (number, Refusal::of_number(number)) {
        (0, _) => Ok(()),
        (INCONSISTENT, _) => Err(Refusal::Inconsistent { rule: rule() }),
        (SHORT_OUTPUT, _) => Err(Refusal::ShortOutput { needed: needed() }),
        (_, Some(refusal)) => Err(refusal),
        (_, None) => unreachable!("a host call answers 0 or a refusal, not {number}"),
    }
}

/// The first rule that the graph of an image breaks, where reading it answers 3.
pub(crate) fn broken_rule(image: &[u8]) -> Rule {
    let [_, place, ..] = parts_of(check_raw(image));
    rule_at(place)
}

pub(crate) fn rule_at(place: u16) -> Rule {
    Rule::try_from(place).unwrap_or_else(|_| unreachable!("a rule has a place from 1 to 30, not {place}"))
}

/// The length of the image that a call refused with 13 would write, by the same call with room for any.
pub(crate) fn needed_by(again: impl FnOnce(&mut [u8]) -> u64) -> usize {
    let [_, _, _, length] = parts_of(again(&mut [0; LONGEST_IMAGE]));
    usize::from(length)
}

/// Four numbers of 16 bits, lowest first.
pub(crate) fn parts_of(number: u64) -> [u16; 4] {
    [0, 16, 32, 48].map(|bits| (number >> bits) as u16)
}
