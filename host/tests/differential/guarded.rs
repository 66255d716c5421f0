//! The calls across the C interface and the independent implementation on the same bytes, with guards around
//! every buffer.

use crate::generator::calls::HostCall;
use crate::generator::operators::operator_list;
use crate::generator::tickets::{list, Ids};
use crate::generator::Random;
use crate::independent::host::{host_call, host_check, host_list_call};
use crate::independent::host::{host_operator_call, host_operator_list_call};
use crate::independent::list::TICKET_LENGTH;
use std::fmt::Debug;
use vimelosa_host::{call_list_raw, call_operator_list_raw, call_operator_raw, call_raw, check_raw};

/// So many bytes or words are a guard, each of them this.
const GUARD: usize = 32;
const GUARD_BYTE: u8 = 0xa5;

/// Bytes or words between two guards.
pub struct Guarded<T> {
    items: Vec<T>,
}

impl<T: Copy + Debug + PartialEq + From<u8>> Guarded<T> {
    pub fn of(inner: &[T]) -> Guarded<T> {
        let guard = [T::from(GUARD_BYTE); GUARD];
        Guarded { items: [&guard, inner, &guard].concat() }
    }

    pub fn inner(&self) -> &[T] {
        &self.items[GUARD..self.items.len() - GUARD]
    }

    pub fn inner_mut(&mut self) -> &mut [T] {
        let end = self.items.len() - GUARD;
        &mut self.items[GUARD..end]
    }

    /// Both guards and what is between them are as expected.
    pub fn assert_holds(&self, inner: &[T]) {
        assert_eq!(self.items, Guarded::of(inner).items);
    }
}

/// Bytes to write to that hold others everywhere, so that a byte left as it was can be told from one written.
/// None of them is a ticket's number or a byte of a text of triples.
pub fn lent_bytes(length: usize) -> Vec<u8> {
    (0..length).map(|place| 0x80 | place as u8).collect()
}

/// The bytes from a place on are as they were lent.
pub fn assert_untouched_from(place: usize, bytes: &[u8]) {
    assert_eq!(bytes[place..], lent_bytes(bytes.len())[place..]);
}

/// One of these answers, with 0 for every other part.
pub fn assert_alone(number: u64, answers: &[u64]) {
    assert!(answers.contains(&number), "{number:#x}");
}

/// What a list call answers and leaves.
#[derive(PartialEq, Eq, Debug)]
pub struct Listed {
    pub number: u64,
    pub answers: Vec<u8>,
    pub output: Vec<u8>,
}

impl Listed {
    pub fn answer(&self) -> u16 {
        self.number as u16
    }

    /// How many tickets were accepted, and how many refused.
    pub fn counts(&self) -> (usize, usize) {
        let part = |shift: u32| usize::from((self.number >> shift) as u16);
        (part(16), part(32))
    }

    /// The image that was written, which is empty on a refusal.
    pub fn image(&self) -> &[u8] {
        &self.output[..(self.number >> 48) as usize]
    }
}

/// A call for a list across the C interface: image, tickets, answers, output.
type HostListCall = fn(&[u8], &[u8], &mut [u8], &mut [u8]) -> u64;

/// The calls of those who send a ticket or a list, proved and independent; what refuses a ticket of theirs,
/// in order; and how a list of theirs of so many tickets is drawn.
pub struct Sender {
    pub proved: (HostCall, HostListCall),
    independent: (HostCall, HostListCall),
    pub refusals: &'static [u64],
    pub list: fn(&mut Random, &Ids, usize) -> Vec<u8>,
}

pub const PLAIN: Sender = Sender {
    proved: (call_raw, call_list_raw),
    independent: (host_call, host_list_call),
    refusals: &[4, 5, 6, 7, 8, 9, 16, 10, 11],
    list,
};

pub const OPERATOR: Sender = Sender {
    proved: (call_operator_raw, call_operator_list_raw),
    independent: (host_operator_call, host_operator_list_call),
    refusals: &[4, 5, 6, 7, 17, 8, 9, 16, 10, 11],
    list: operator_list,
};

/// The number that both plain calls give, and the output that both leave.
pub fn same_call(image: &[u8], ticket: &[u8], output_length: usize) -> (u64, Vec<u8>) {
    PLAIN.same_call(image, ticket, output_length)
}

/// The same of the operators' calls.
pub fn same_operator_call(image: &[u8], ticket: &[u8], output_length: usize) -> (u64, Vec<u8>) {
    OPERATOR.same_call(image, ticket, output_length)
}

/// Tests of these names, each for the plain calls and for the operators'.
macro_rules! for_each_sender {
    ($($name:ident)*) => {
        mod plain {
            $(#[test] fn $name() { super::$name(&crate::guarded::PLAIN); })*
        }

        mod operators {
            $(#[test] fn $name() { super::$name(&crate::guarded::OPERATOR); })*
        }
    };
}

impl Sender {
    /// The number that both give, and the output that both leave. Image and ticket are left as they were, so
    /// is every guard, and so is the output on a refusal and after the image.
    fn same_call(&self, image: &[u8], ticket: &[u8], output_length: usize) -> (u64, Vec<u8>) {
        let mut expected = lent_bytes(output_length);
        let expected_number = (self.independent.0)(image, ticket, &mut expected);

        let (lent_image, lent_ticket) = (Guarded::of(image), Guarded::of(ticket));
        let mut lent_output = Guarded::of(&lent_bytes(output_length));
        let number = (self.proved.0)(lent_image.inner(), lent_ticket.inner(), lent_output.inner_mut());

        assert_eq!(number, expected_number, "{ticket:02x?} on {image:02x?}");
        lent_image.assert_holds(image);
        lent_ticket.assert_holds(ticket);
        lent_output.assert_holds(&expected);
        assert_untouched_from((number >> 48) as usize, &expected);
        if number as u16 != 0 {
            assert_alone(number, &[&[12, 11, 3], self.refusals, &[13]].concat());
        }
        (number, expected)
    }

    /// What both give and leave for a list, with so many answer bytes and such an output. Image and tickets
    /// are left as they were, so is every guard, so are answers and output on a refusal, and what comes after
    /// them.
    pub fn same_list_call(&self, image: &[u8], tickets: &[u8], answers: usize, output: usize) -> Listed {
        let (mut expected_answers, mut expected_output) = (lent_bytes(answers), lent_bytes(output));
        let expected_number =
            (self.independent.1)(image, tickets, &mut expected_answers, &mut expected_output);

        let (lent_image, lent_tickets) = (Guarded::of(image), Guarded::of(tickets));
        let mut lent_answers = Guarded::of(&lent_bytes(answers));
        let mut lent_output = Guarded::of(&lent_bytes(output));
        let number = (self.proved.1)(
            lent_image.inner(),
            lent_tickets.inner(),
            lent_answers.inner_mut(),
            lent_output.inner_mut(),
        );

        assert_eq!(number, expected_number, "{tickets:02x?} on {image:02x?}");
        lent_image.assert_holds(image);
        lent_tickets.assert_holds(tickets);
        lent_answers.assert_holds(&expected_answers);
        lent_output.assert_holds(&expected_output);
        let listed = Listed { number, answers: expected_answers, output: expected_output };
        assert_untouched_from(listed.image().len(), &listed.output);
        if listed.answer() == 0 {
            self.assert_counted(tickets.chunks(TICKET_LENGTH).len(), &listed);
        } else {
            assert_untouched_from(0, &listed.answers);
            assert_alone(number, &[12, 11, 3, 14, 13]);
        }
        listed
    }

    /// Each ticket has its number, the counts are those of the numbers, and the bytes after them are as lent.
    fn assert_counted(&self, tickets: usize, listed: &Listed) {
        let (numbers, _) = listed.answers.split_at(tickets);
        let accepted = numbers.iter().filter(|number| **number == 0).count();
        let is_told = |number: &u8| *number == 0 || self.refusals.contains(&u64::from(*number));
        assert!(numbers.iter().all(is_told), "{numbers:?}");
        assert_eq!(listed.counts(), (accepted, tickets - accepted));
        assert_untouched_from(tickets, &listed.answers);
    }
}

/// The number that both give for the check of an image, which is left as it was.
pub fn same_check(image: &[u8]) -> u64 {
    let expected = host_check(image);
    let lent_image = Guarded::of(image);
    let number = check_raw(lent_image.inner());
    assert_eq!(number, expected, "{image:02x?}");
    lent_image.assert_holds(image);
    match number as u16 {
        3 => assert!((1..=30).contains(&(number >> 16)), "{number:#x}"),
        _ => assert_alone(number, &[0, 11, 12]),
    }
    number
}
