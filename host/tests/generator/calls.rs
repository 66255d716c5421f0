//! Host calls of every sort, for whoever compares two implementations of it.

use super::damage::{damaged, each_contents_byte_changed};
use super::graphs::{disturbed, filled, grown, image, marked, overlong, some_image_of, ten_entries};
use super::tickets::{any_ticket, Ids, ALL_IDS, FEW, MANY, PLENTY};
use super::Random;
use crate::independent::table::fresh_graph;
use vimelosa_host::LONGEST_IMAGE;

/// A call for one ticket across the C interface: image, ticket, output.
pub type HostCall = fn(&[u8], &[u8], &mut [u8]) -> u64;

/// The numbers of single calls one after another, each on the image that the one before left, and the image
/// that the last leaves.
pub fn run_singly(call: HostCall, image: &[u8], list: &[u8]) -> (Vec<u64>, Vec<u8>) {
    let mut held = image.to_vec();
    let mut run_one = |ticket: &[u8]| {
        let mut output = vec![0; LONGEST_IMAGE];
        let number = call(&held, ticket, &mut output);
        if number as u16 == 0 {
            held = output[..(number >> 48) as usize].to_vec();
        }
        number
    };
    let numbers = list.chunks(5).map(&mut run_one).collect();
    (numbers, held)
}

/// Compares the calls with an image, a ticket and an output of a length; their number, and the output that
/// they leave.
pub type SameCall = fn(&[u8], &[u8], usize) -> (u64, Vec<u8>);

/// Draws a ticket.
pub type Draw = fn(&mut Random, &Ids) -> Vec<u8>;

/// How often each number is given.
pub type Met = [usize; 18];

/// Fifty tickets in turn on what the accepted ones leave of a fresh graph, whose image has ten entries at
/// first now and then.
pub fn on_growing_graphs(random: &mut Random, rounds: usize, same_call: SameCall) {
    for round in 0..rounds {
        let held = some_image_of(random, &fresh_graph());
        fifty_in_turn(random, &ALL_IDS[round % 4], held, any_ticket, same_call);
    }
}

/// Fifty tickets in turn on what the accepted ones leave of an image's graph; one output in six is about as
/// long as the image.
pub fn fifty_in_turn(random: &mut Random, ids: &Ids, image: Vec<u8>, draw: Draw, same_call: SameCall) -> Met {
    let (mut held, mut met) = (image, [0; 18]);
    for _ in 0..50 {
        let ticket = draw(random, ids);
        let around = random.below(held.len() + 8);
        let length = if random.is_one_in(6) { around } else { LONGEST_IMAGE };
        let (number, output) = same_call(&held, &ticket, length);
        met[usize::from(number as u16)] += 1;
        if number as u16 == 0 {
            held = output[..(number >> 48) as usize].to_vec();
        }
    }
    met
}

/// Tickets on full tables and on nearly full ones.
pub fn on_full_tables(random: &mut Random, rounds: usize, draw: Draw, same_call: SameCall) -> Met {
    let mut met = [0; 18];
    for round in 0..rounds {
        let full = image(&filled(random, [2048, 2047, 2040][round % 3]));
        let ids = Ids { deletions: 4, ..[MANY, PLENTY][round % 2] };
        for _ in 0..60 {
            let ticket = draw(random, &ids);
            let (number, _) = same_call(&full, &ticket, LONGEST_IMAGE);
            met[usize::from(number as u16)] += 1;
        }
    }
    met
}

/// Images changed in one place or another, of graphs that break a rule or two, and with the mark out of
/// place.
pub fn on_damaged_images(random: &mut Random, rounds: usize, same_call: SameCall) {
    for round in 0..rounds {
        let ids = &ALL_IDS[round % 4];
        let graph = grown(random, ids, 30, 2048);
        let whole = some_image_of(random, &graph);
        for _ in 0..6 {
            let ticket = any_ticket(random, ids);
            same_call(&damaged(random, &whole), &ticket, LONGEST_IMAGE);
        }
        let graph = disturbed(random, &FEW, 50);
        let disturbed = some_image_of(random, &graph);
        same_call(&disturbed, &any_ticket(random, &FEW), LONGEST_IMAGE);
        let graph = marked(random, &FEW);
        let marked = some_image_of(random, &graph);
        same_call(&marked, &any_ticket(random, &FEW), LONGEST_IMAGE);
    }
}

/// Images of both forms with each byte of the contents changed, and one of too many facts, whole and without
/// its start.
pub fn on_changed_contents(random: &mut Random, same_call: SameCall) {
    let graph = grown(random, &MANY, 40, 2048);
    for whole in [image(&graph), ten_entries(&graph)] {
        same_call(&whole, &[1, 3, 77, 0, 0], LONGEST_IMAGE);
        for changed in each_contents_byte_changed(&whole) {
            same_call(&changed, &[1, 3, 77, 0, 0], LONGEST_IMAGE);
        }
    }
    let overlong = image(&overlong());
    same_call(&overlong, &[1, 1, 2, 0, 0], LONGEST_IMAGE);
    same_call(&overlong[1..], &[1, 1, 2, 0, 0], LONGEST_IMAGE);
}

/// Images of both forms cut off at every byte.
pub fn on_every_image_length(random: &mut Random, same_call: SameCall) {
    let graph = filled(random, 200);
    for whole in [image(&graph), ten_entries(&graph)] {
        for length in 0..=whole.len() {
            same_call(&whole[..length], &[1, 3, 77, 0, 0], LONGEST_IMAGE);
        }
    }
}

/// The bytes of a ticket again and again, cut off at every length.
pub fn on_every_ticket_length(random: &mut Random, ticket: [u8; 5], same_call: SameCall) {
    let whole = image(&grown(random, &MANY, 40, 2048));
    for length in 0..40 {
        same_call(&whole, &ticket.repeat(8)[..length], LONGEST_IMAGE);
    }
}

/// Every length of the output up to some bytes more than the new image, for an accepted insertion and an
/// accepted deletion by turns.
pub fn on_every_output_length(
    random: &mut Random,
    rounds: usize,
    tickets: [[u8; 5]; 2],
    same_call: SameCall,
) {
    for round in 0..rounds {
        let whole = image(&grown(random, &FEW, 20, 60));
        let ticket = tickets[round % 2];
        let (number, _) = same_call(&whole, &ticket, LONGEST_IMAGE);
        let length = (number >> 48) as usize;
        assert!(length > 68);
        for short in 0..length {
            assert_eq!(same_call(&whole, &ticket, short).0, 13);
        }
        for long in length..length + 4 {
            assert_eq!(same_call(&whole, &ticket, long).0, number);
        }
    }
}

/// One byte short for many graphs: the new image counts, not the old one, whichever form that has.
pub fn with_the_output_one_byte_short(random: &mut Random, rounds: usize, draw: Draw, same_call: SameCall) {
    for round in 0..rounds {
        let ids = Ids { deletions: 2, ..ALL_IDS[round % 4] };
        let graph = grown(random, &ids, 30, 2048);
        let whole = some_image_of(random, &graph);
        let ticket = draw(random, &ids);
        let (number, _) = same_call(&whole, &ticket, LONGEST_IMAGE);
        let length = (number >> 48) as usize;
        if length > 0 {
            assert_eq!(same_call(&whole, &ticket, length - 1).0, 13);
            assert_eq!(same_call(&whole, &ticket, length).0, number);
        }
    }
}

/// Too many facts come before all that the ticket says.
pub fn on_overlong_images(same_call: SameCall) {
    let whole = image(&overlong());
    assert_eq!(same_call(&whole, &[1, 1, 2, 0, 0], LONGEST_IMAGE).0, 11);
    assert_eq!(same_call(&whole[1..], &[1, 1, 2, 0, 0], LONGEST_IMAGE).0, 12);
}
