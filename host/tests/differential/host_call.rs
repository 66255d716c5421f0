//! The host call on images, tickets and outputs of every sort.

use crate::generator::graphs::ten_entries;
use crate::generator::tickets::{any_ticket, holders, ALL_IDS};
use crate::generator::{calls, graphs, rounds, Random};
use crate::guarded::same_call;
use vimelosa_host::LONGEST_IMAGE;

#[test]
fn on_growing_graphs() {
    let mut random = Random::for_test("host_call_on_growing_graphs");
    calls::on_growing_graphs(&mut random, rounds(250), same_call);
}

/// Tickets about exclusive properties in turn on what the accepted ones leave, from an image of either form.
#[test]
fn on_exclusive_properties() {
    let mut random = Random::for_test("host_call_on_exclusive_properties");
    let mut seen = [0; 17];
    for round in 0..rounds(60) {
        let ids = &ALL_IDS[round % 4];
        let mut held = ten_entries(&graphs::grown(&mut random, ids, 5, 60));
        for ticket in holders(&mut random, ids, 50).chunks(5) {
            let (number, output) = same_call(&held, ticket, LONGEST_IMAGE);
            seen[usize::from(number as u16)] += 1;
            if number as u16 == 0 {
                held = output[..(number >> 48) as usize].to_vec();
            }
        }
    }
    assert!([0, 9, 10].iter().all(|number| seen[*number] > 50), "{seen:?}");
}

#[test]
fn on_damaged_images() {
    let mut random = Random::for_test("host_call_on_damaged_images");
    calls::on_damaged_images(&mut random, rounds(500), same_call);
}

#[test]
fn on_changed_contents() {
    let mut random = Random::for_test("host_call_on_changed_contents");
    calls::on_changed_contents(&mut random, same_call);
}

#[test]
fn on_full_tables() {
    let mut random = Random::for_test("host_call_on_full_tables");
    let met = calls::on_full_tables(&mut random, rounds(6), any_ticket, same_call);
    assert!([0, 10, 11, 16].iter().all(|number| met[*number] > 5), "{met:?}");
}

#[test]
fn on_every_image_length() {
    let mut random = Random::for_test("host_call_on_every_image_length");
    calls::on_every_image_length(&mut random, same_call);
}

#[test]
fn on_every_ticket_length() {
    let mut random = Random::for_test("host_call_on_every_ticket_length");
    calls::on_every_ticket_length(&mut random, [1, 1, 2, 0, 0], same_call);
}

#[test]
fn on_every_output_length() {
    let mut random = Random::for_test("host_call_on_every_output_length");
    let tickets = [[1, 3, 77, 0, 0], [2, 1, 3, 0, 0]];
    calls::on_every_output_length(&mut random, rounds(6), tickets, same_call);
}

#[test]
fn with_the_output_one_byte_short() {
    let mut random = Random::for_test("host_call_one_byte_short");
    calls::with_the_output_one_byte_short(&mut random, rounds(150), any_ticket, same_call);
}

#[test]
fn on_overlong_images() {
    calls::on_overlong_images(same_call);
}
