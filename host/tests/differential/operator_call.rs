//! The operators' call on images, tickets and outputs of every sort.

use crate::generator::graphs::{grown, image, some_image_of};
use crate::generator::operators::{any_operator_ticket, OPERATORS_KINDS};
use crate::generator::tickets::{holders, Ids, ALL_IDS, MANY};
use crate::generator::{calls, rounds, Random};
use crate::guarded::{same_call, same_operator_call};
use vimelosa_host::LONGEST_IMAGE;

/// Tickets in turn on what the accepted ones leave of a graph with classes and properties. Every number that
/// a ticket gets on a table with room is met.
#[test]
fn on_growing_graphs() {
    let mut random = Random::for_test("operator_call_on_growing_graphs");
    let mut met = [0; 18];
    for round in 0..rounds(200) {
        let ids = &ALL_IDS[round % 4];
        let graph = grown(&mut random, ids, 30, 2048);
        let start = some_image_of(&mut random, &graph);
        let draw = any_operator_ticket;
        let more = calls::fifty_in_turn(&mut random, ids, start, draw, same_operator_call);
        met.iter_mut().zip(more).for_each(|(count, more)| *count += more);
    }
    let numbers = [0, 4, 5, 6, 7, 17, 8, 9, 16, 10, 13];
    assert!(numbers.iter().all(|number| met[*number] > 20), "{met:?}");
}

/// Tickets about exclusive properties by turns: the operators' call runs those of its kinds and one in four
/// of the others, the plain call the rest, each on what the accepted ones before leave.
#[test]
fn on_exclusive_properties() {
    let mut random = Random::for_test("operator_call_on_exclusive_properties");
    let mut met = [0; 18];
    for round in 0..rounds(60) {
        let ids = &ALL_IDS[round % 4];
        let mut held = image(&grown(&mut random, ids, 5, 60));
        for ticket in holders(&mut random, ids, 60).chunks(5) {
            let is_operators = OPERATORS_KINDS.contains(&ticket[1]) || random.is_one_in(4);
            let call = if is_operators { same_operator_call } else { same_call };
            let (number, output) = call(&held, ticket, LONGEST_IMAGE);
            met[usize::from(number as u16)] += usize::from(is_operators);
            if number as u16 == 0 {
                held = output[..(number >> 48) as usize].to_vec();
            }
        }
    }
    assert!([0, 9, 10, 17].iter().all(|number| met[*number] > 50), "{met:?}");
}

/// Every operation and kind, with ids that are good and bad, on one graph.
#[test]
fn on_every_operation_and_kind() {
    let mut random = Random::for_test("operator_call_on_every_operation_and_kind");
    let whole = image(&grown(&mut random, &MANY, 60, 2048));
    let ids = [[0, 0, 0], [2, 0, 0], [40, 3, 0], [20, 21, 0], [40, 41, 20], [1, 2, 0], [20, 2, 1]];
    for [a, b, c] in ids {
        for kind in 0..=255 {
            for operation in [0, 1, 2, 3] {
                same_operator_call(&whole, &[operation, kind, a, b, c], LONGEST_IMAGE);
            }
        }
    }
}

#[test]
fn on_damaged_images() {
    let mut random = Random::for_test("operator_call_on_damaged_images");
    calls::on_damaged_images(&mut random, rounds(250), same_operator_call);
}

#[test]
fn on_changed_contents() {
    let mut random = Random::for_test("operator_call_on_changed_contents");
    calls::on_changed_contents(&mut random, same_operator_call);
}

#[test]
fn on_full_tables() {
    let mut random = Random::for_test("operator_call_on_full_tables");
    let met = calls::on_full_tables(&mut random, rounds(6), any_operator_ticket, same_operator_call);
    assert!([0, 10, 11, 16, 17].iter().all(|number| met[*number] > 5), "{met:?}");
}

#[test]
fn on_every_image_length() {
    let mut random = Random::for_test("operator_call_on_every_image_length");
    calls::on_every_image_length(&mut random, same_operator_call);
}

/// Five bytes of one ticket would be accepted, those of the other are a class.
#[test]
fn on_every_ticket_length() {
    let mut random = Random::for_test("operator_call_on_every_ticket_length");
    for ticket in [[1, 3, 77, 0, 0], [1, 1, 2, 0, 0]] {
        calls::on_every_ticket_length(&mut random, ticket, same_operator_call);
    }
}

#[test]
fn on_every_output_length() {
    let mut random = Random::for_test("operator_call_on_every_output_length");
    let tickets = [[1, 3, 77, 0, 0], [2, 3, 8, 0, 0]];
    calls::on_every_output_length(&mut random, rounds(6), tickets, same_operator_call);
}

/// A kind that is not for operators is told however short the output is.
#[test]
fn on_every_output_length_for_a_class() {
    let mut random = Random::for_test("operator_call_on_every_output_length_for_a_class");
    let whole = image(&grown(&mut random, &MANY, 20, 60));
    for length in 0..whole.len() + 8 {
        assert_eq!(same_operator_call(&whole, &[1, 1, 77, 0, 0], length).0, 17);
        assert_eq!(same_operator_call(&whole, &[2, 1, 0, 0, 0], length).0, 17);
    }
}

#[test]
fn with_the_output_one_byte_short() {
    let mut random = Random::for_test("operator_call_one_byte_short");
    let draw = any_operator_ticket;
    calls::with_the_output_one_byte_short(&mut random, rounds(150), draw, same_operator_call);
}

#[test]
fn on_overlong_images() {
    calls::on_overlong_images(same_operator_call);
}

/// With a kind for operators both calls give the same; with another this one gives the plain call's 4 to 7,
/// or 17.
#[test]
fn beside_the_plain_call() {
    let mut random = Random::for_test("operator_call_beside_the_plain_call");
    for round in 0..rounds(60) {
        let ids = Ids { deletions: 3, ..ALL_IDS[round % 4] };
        let graph = grown(&mut random, &ids, 40, 2048);
        let whole = some_image_of(&mut random, &graph);
        for _ in 0..12 {
            let ticket = any_operator_ticket(&mut random, &ids);
            let length = random.pick(&[0, 100, LONGEST_IMAGE, LONGEST_IMAGE]);
            let (plain, own) =
                (same_call(&whole, &ticket, length), same_operator_call(&whole, &ticket, length));
            let is_theirs = ticket.get(1).map_or(false, |kind| OPERATORS_KINDS.contains(kind));
            match plain.0 {
                4..=7 => assert_eq!(own, plain, "{ticket:02x?}"),
                _ if is_theirs => assert_eq!(own, plain, "{ticket:02x?}"),
                _ => assert_eq!(own.0, 17, "{ticket:02x?}"),
            }
        }
    }
}
