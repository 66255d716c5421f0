//! The list call, 1,000 tickets across the C interface at once: beside as many single calls, beside the
//! operators' list call, and as a process that runs a long list.

use crate::candidates::{ListCall, LIST_CALLS, NAMES};
use crate::clock::{interleaved, repeated, shares, Readings, Run};
use crate::rivals::sorted::Sorted;
use crate::rivals::{accepted, Rival, TICKET_LENGTH};
use crate::settings::Settings;
use crate::tables::Line;
use std::io::{Read, Result, Write};
use std::mem::swap;
use vimelosa_host::{call_list_raw, call_operator_list_raw, call_raw, LONGEST_IMAGE};

/// The tickets of one call.
const TICKETS: usize = 1000;
const LIST_LENGTH: usize = TICKETS * TICKET_LENGTH;

/// One reading has so many calls, each with other tickets: a processor learns the branches of 1,000 tickets
/// that are run again and again, and is several times as fast on them.
const CALLS: usize = 10;

/// What was measured on the first tickets of one list, in nanoseconds a ticket.
pub struct Measured {
    pub tickets: usize,
    pub accepted: usize,
    /// The facts of the graph that they leave.
    pub facts: usize,
    /// The list calls of the candidates.
    pub list_calls: Line,
    /// The proved single calls, beside the proved list calls.
    pub single_calls: Line,
}

/// What is timed on each list: the list calls of every candidate, then the single calls.
fn timed_calls() -> Vec<ListCall> {
    LIST_CALLS.into_iter().chain([single_calls as ListCall]).collect()
}

/// All calls give and write the same; then they are timed, each once on each list within every repetition.
pub fn measure(settings: &Settings, lists: &[(&str, Vec<u8>)]) -> Vec<Measured> {
    let lists: Vec<(&str, &[u8])> =
        lists.iter().map(|(name, list)| (*name, &list[..CALLS * LIST_LENGTH])).collect();
    let (calls, fresh) = (timed_calls(), Sorted::fresh().image());
    let left: Vec<Left> = lists.iter().map(|(_, list)| compare(&calls, &fresh, list)).collect();
    let run = |list, call: &ListCall| repeated(settings.slice, called(*call, &fresh, list));
    let each = lists.iter().flat_map(|(_, list)| calls.iter().map(move |call| run(list, call)));
    let readings = interleaved(settings.processes, &mut each.collect::<Vec<Run>>());
    let shares = shares(&readings, CALLS * TICKETS);
    let own = left.iter().zip(shares.chunks(calls.len()));
    lists.iter().zip(own).map(|((name, _), (left, own))| Measured::of(name, left, own)).collect()
}

/// Operators' tickets on an image by the operators' list call and by the plain one, in nanoseconds a ticket.
pub fn measure_operators(settings: &Settings, (image, tickets): &(Vec<u8>, Vec<u8>)) -> Line {
    let (calls, tickets) =
        ([call_operator_list_raw as ListCall, call_list_raw], &tickets[..CALLS * LIST_LENGTH]);
    assert_eq!(compare(&calls, image, tickets).accepted, CALLS * TICKETS, "a ticket is refused");
    let mut runs = calls.map(|call| repeated(settings.slice, called(call, image, tickets)));
    let readings = interleaved(settings.processes, &mut runs);
    Line::of("shifts".to_string(), &shares(&readings, CALLS * TICKETS))
}

impl Measured {
    fn of(name: &str, left: &Left, readings: &[Readings]) -> Measured {
        let (list_calls, single_calls) = readings.split_at(NAMES.len());
        let table = Sorted::read(&left.image).expect("the image is good");
        Measured {
            tickets: CALLS * TICKETS,
            accepted: left.accepted,
            facts: table.count_facts(),
            list_calls: Line::of(name.to_string(), list_calls),
            single_calls: Line::of(name.to_string(), &[single_calls[0].clone(), list_calls[0].clone()]),
        }
    }
}

/// The image that tickets leave of another, and how many were accepted.
struct Left {
    image: Vec<u8>,
    accepted: usize,
}

/// What all calls leave of an image, if they give the same number, answers and output each time and write no
/// other byte.
fn compare(calls: &[ListCall], image: &[u8], tickets: &[u8]) -> Left {
    let mut left = Left { image: image.to_vec(), accepted: 0 };
    for list in tickets.chunks(LIST_LENGTH) {
        let answer = |call: &ListCall| {
            let (mut answers, mut output) = ([0x5a; TICKETS + 1], vec![0x5a; LONGEST_IMAGE]);
            let number = call(&left.image, list, &mut answers, &mut output);
            (number, answers, output)
        };
        let answered: Vec<_> = calls.iter().map(answer).collect();
        assert!(answered.iter().all(|other| *other == answered[0]), "the list calls differ");
        let (number, _, output) = &answered[0];
        assert_eq!(*number as u16, 0, "a list is refused");
        left.accepted += usize::from((number >> 16) as u16);
        left.image = output[..image_length(*number)].to_vec();
    }
    left
}

/// The image's length in the number of an accepted call.
fn image_length(number: u64) -> usize {
    (number >> 48) as usize
}

fn called<'a>(call: ListCall, image: &'a [u8], tickets: &'a [u8]) -> impl FnMut() -> Vec<u8> + 'a {
    let mut answers = [0; CALLS * TICKETS];
    move || run_in_lists(call, image, tickets, &mut answers)
}

/// Runs tickets, 1,000 to a call, from an image on and each call on the image that the one before put out.
/// Writes the answers of all and gives the last image.
fn run_in_lists(call: ListCall, image: &[u8], tickets: &[u8], answers: &mut [u8]) -> Vec<u8> {
    let (mut held, mut next) = (image.to_vec(), vec![0; LONGEST_IMAGE]);
    let mut length = held.len();
    held.resize(LONGEST_IMAGE, 0);
    for (list, answers) in tickets.chunks(LIST_LENGTH).zip(answers.chunks_mut(TICKETS)) {
        let number = call(&held[..length], list, answers, &mut next);
        assert_eq!(number as u16, 0, "a list is refused");
        length = image_length(number);
        swap(&mut held, &mut next);
    }
    held.truncate(length);
    held
}

/// A list by the proved single calls, each on the image that the one before put out: the same number, answers
/// and output as the list call's, for an image that is read and lent bytes that suffice.
fn single_calls(image: &[u8], tickets: &[u8], answers: &mut [u8], output: &mut [u8]) -> u64 {
    let (mut held, mut next) = (image.to_vec(), vec![0; LONGEST_IMAGE]);
    held.resize(LONGEST_IMAGE, 0);
    let (mut length, mut refused) = (image.len(), 0);
    let tickets = tickets.chunks(TICKET_LENGTH);
    let count = tickets.len();
    for (ticket, answer) in tickets.zip(answers) {
        let number = call_raw(&held[..length], ticket, &mut next);
        *answer = number as u8;
        if number as u16 == 0 {
            length = image_length(number);
            swap(&mut held, &mut next);
        } else {
            refused += 1;
        }
    }
    output[..length].copy_from_slice(&held[..length]);
    accepted([count - refused, refused, length])
}

/// A candidate's program: runs tickets from standard input in lists of 1,000, and writes the answers of all
/// and then the last image.
pub fn run(call: ListCall, mut input: impl Read, mut output: impl Write) -> Result<()> {
    let mut tickets = Vec::new();
    input.read_to_end(&mut tickets)?;
    let mut answers = vec![0; tickets.chunks(TICKET_LENGTH).len()];
    let image = run_in_lists(call, &Sorted::fresh().image(), &tickets, &mut answers);
    output.write_all(&answers)?;
    output.write_all(&image)
}
