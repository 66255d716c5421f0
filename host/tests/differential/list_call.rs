//! The list call on images and lists of every sort. Most tests are for the plain calls and the operators'
//! alike; those of the operators' alone are in `operator_list_call`.

use crate::generator::calls::run_singly;
use crate::generator::damage::{damaged, each_contents_byte_changed};
use crate::generator::graphs::{broken, filled, grown, image, marked, overlong, some_image_of, ten_entries};
use crate::generator::tickets::{holders, misspelt, records, Ids, ALL_IDS, FEW, MANY, PLENTY};
use crate::generator::{rounds, Random};
use crate::guarded::{Sender, PLAIN};
use crate::independent::host::MOST_TICKETS;
use crate::independent::table::fresh_graph;
use vimelosa_host::LONGEST_IMAGE;

/// How many tickets a list has.
pub fn count_tickets(list: &[u8]) -> usize {
    list.chunks(5).len()
}

pub fn fresh_image() -> Vec<u8> {
    image(&fresh_graph())
}

/// Lists of 0 to 120 tickets, each on what the one before left until that is large. Every number that a
/// ticket gets on a table with room is met.
#[test]
fn on_growing_graphs() {
    let mut random = Random::for_test("list_call_on_growing_graphs");
    let mut met = [0; 17];
    for round in 0..rounds(4) {
        let mut held = fresh_image();
        for count in 0..=120 {
            if held.len() > 800 {
                held = fresh_image();
            }
            let list = (PLAIN.list)(&mut random, &ALL_IDS[round % 4], count);
            let answers = count_tickets(&list) + random.below(3);
            let listed = PLAIN.same_list_call(&held, &list, answers, LONGEST_IMAGE);
            assert_eq!(listed.answer(), 0);
            for number in &listed.answers[..count_tickets(&list)] {
                met[usize::from(*number)] += 1;
            }
            held = listed.image().to_vec();
        }
    }
    assert!([0, 4, 5, 6, 7, 8, 9, 10, 16].iter().all(|number| met[*number] > 5), "{met:?}");
}

/// Lists about exclusive properties, each on what the one before left; the first image has ten entries.
#[test]
fn on_exclusive_properties() {
    let mut random = Random::for_test("list_call_on_exclusive_properties");
    let mut met = [0; 17];
    for round in 0..rounds(40) {
        let ids = Ids { deletions: 4, ..ALL_IDS[round % 4] };
        let mut held = ten_entries(&grown(&mut random, &ids, 5, 60));
        for count in [0, 1, 30, 60] {
            let list = holders(&mut random, &ids, count);
            let listed = PLAIN.same_list_call(&held, &list, count_tickets(&list), LONGEST_IMAGE);
            listed.answers.iter().for_each(|number| met[usize::from(*number)] += 1);
            held = listed.image().to_vec();
        }
    }
    assert!([0, 9, 10].iter().all(|number| met[*number] > 50), "{met:?}");
}

fn gives_what_single_calls_give(sender: &Sender) {
    let mut random = Random::for_test("list_call_and_single_calls");
    for round in 0..rounds(80) {
        let ids = Ids { deletions: 4, ..ALL_IDS[round % 4] };
        let whole = image(&grown(&mut random, &ids, 30, 2048));
        let list = (sender.list)(&mut random, &ids, 7 * (round % 80));
        let count = count_tickets(&list);
        let (mut answers, mut output) = (vec![99; count], vec![99; LONGEST_IMAGE]);
        let (call, list_call) = sender.proved;
        let number = list_call(&whole, &list, &mut answers, &mut output);
        let (numbers, left) = run_singly(call, &whole, &list);
        let numbers: Vec<u8> = numbers.into_iter().map(|number| number as u8).collect();
        assert_eq!(number as u16, 0);
        assert_eq!(answers, numbers, "{list:02x?} on {whole:02x?}");
        assert_eq!(output[..(number >> 48) as usize], left, "{list:02x?} on {whole:02x?}");
    }
}

/// Whole tickets, then 0 to 4 bytes that begin one more, which would be accepted.
fn with_bytes_left_over(sender: &Sender) {
    let mut random = Random::for_test("list_call_with_bytes_left_over");
    for count in 0..rounds(12) {
        let whole = image(&grown(&mut random, &FEW, 10, 2048));
        let tickets = records(&mut random, &FEW, count);
        for left_over in 0..5 {
            let list = [&tickets[..], &[1, 4, 99, 0, 0][..left_over]].concat();
            let listed = sender.same_list_call(&whole, &list, count + 1, LONGEST_IMAGE);
            let last = if left_over == 0 { 0x80 | count as u8 } else { 4 };
            assert_eq!(listed.answers[count], last);
        }
    }
}

/// Images changed in one place or another, of graphs that break a rule or more, and with the mark out of
/// place. One call in three has an answer byte too few, one in three a short output.
fn on_damaged_images(sender: &Sender) {
    let mut random = Random::for_test("list_call_on_damaged_images");
    let mut met = [0; 15];
    for round in 0..rounds(250) {
        let ids = &ALL_IDS[round % 4];
        let graph = grown(&mut random, ids, 30, 2048);
        let whole = some_image_of(&mut random, &graph);
        let mut images: Vec<Vec<u8>> = (0..6).map(|_| damaged(&mut random, &whole)).collect();
        let graphs = [broken(&mut random, &FEW), marked(&mut random, &FEW)];
        images.extend(graphs.map(|graph| some_image_of(&mut random, &graph)));
        for image in images {
            let list = (sender.list)(&mut random, ids, 1 + round % 5);
            let answers = count_tickets(&list) - usize::from(random.is_one_in(3));
            let output = if random.is_one_in(3) { 68 } else { LONGEST_IMAGE };
            let listed = sender.same_list_call(&image, &list, answers, output);
            met[usize::from(listed.answer())] += 1;
        }
    }
    assert!([0, 3, 12, 13, 14].iter().all(|number| met[*number] > 5), "{met:?}");
}

fn on_changed_contents(sender: &Sender) {
    let mut random = Random::for_test("list_call_on_changed_contents");
    let graph = grown(&mut random, &MANY, 40, 2048);
    let list = [1, 3, 77, 0, 0, 2, 3, 77, 0, 0];
    for whole in [image(&graph), ten_entries(&graph)] {
        for changed in each_contents_byte_changed(&whole) {
            sender.same_list_call(&changed, &list, 2, LONGEST_IMAGE);
            sender.same_list_call(&changed, &list, 1, 0);
        }
    }
}

fn on_every_image_length(sender: &Sender) {
    let mut random = Random::for_test("list_call_on_every_image_length");
    let whole = image(&filled(&mut random, 150));
    for length in 0..=whole.len() {
        sender.same_list_call(&whole[..length], &[1, 3, 77, 0, 0, 9], 2, LONGEST_IMAGE);
    }
}

/// 11 comes before 3, 14 and 13.
fn on_overlong_images(sender: &Sender) {
    let whole = image(&overlong());
    for (answers, output) in [(2, LONGEST_IMAGE), (0, LONGEST_IMAGE), (2, 0), (0, 0)] {
        assert_eq!(sender.same_list_call(&whole, &[1, 1, 2, 0, 0, 1], answers, output).number, 11);
        assert_eq!(sender.same_list_call(&whole[1..], &[1, 1, 2, 0, 0, 1], answers, output).number, 12);
    }
}

/// On full tables and nearly full ones a ticket gets 10, 11 or 16, and deletions make room for others.
fn on_full_tables(sender: &Sender) {
    let mut random = Random::for_test("list_call_on_full_tables");
    let mut met = [0; 18];
    for round in 0..rounds(6) {
        let full = image(&filled(&mut random, [2048, 2047, 2040][round % 3]));
        let ids = Ids { deletions: 4, ..[MANY, PLENTY][round % 2] };
        let list = [misspelt(&mut random, &ids, 5), (sender.list)(&mut random, &ids, 30)].concat();
        let answers = count_tickets(&list);
        let listed = sender.same_list_call(&full, &list, answers, LONGEST_IMAGE);
        for number in &listed.answers {
            met[usize::from(*number)] += 1;
        }
        if round % 3 == 0 {
            let short = listed.image().len() - 1;
            assert_eq!(sender.same_list_call(&full, &list, answers, short).number, 13);
        }
    }
    assert!([0, 10, 11, 16].iter().all(|number| met[*number] > 5), "{met:?}");
}

/// As many tickets as the counts can count, all accepted, all refused, or some of each.
fn on_the_longest_lists(sender: &Sender) {
    let (insert, delete, bad) = ([1, 4, 2, 0, 0], [2, 4, 2, 0, 0], [3, 4, 2, 0, 0]);
    let whole = fresh_image();
    for cycle in [&[insert, delete][..], &[bad], &[insert, insert, bad, delete]] {
        let tickets = cycle.iter().flatten().copied().cycle();
        let list: Vec<u8> = tickets.take(5 * MOST_TICKETS).collect();
        let listed = sender.same_list_call(&whole, &list, MOST_TICKETS + 3, LONGEST_IMAGE);
        let (accepted, refused) = listed.counts();
        assert_eq!((listed.answer(), accepted + refused), (0, MOST_TICKETS));
        sender.same_list_call(&whole, &list[..list.len() - 2], MOST_TICKETS, LONGEST_IMAGE);
    }
}

/// One ticket more, whole or not, however many answer bytes there are: 14, after what reading refuses and
/// before 13.
fn on_lists_that_are_too_long(sender: &Sender) {
    let whole = fresh_image();
    let list = [1, 4, 2, 0, 0].repeat(MOST_TICKETS + 1);
    for left_over in 1..=5 {
        let list = &list[..5 * MOST_TICKETS + left_over];
        assert_eq!(sender.same_list_call(&whole, list, MOST_TICKETS + 1, LONGEST_IMAGE).number, 14);
    }
    let longer = list.repeat(2);
    for (tickets, answers) in [(&list, MOST_TICKETS), (&list, 0), (&longer, 2 * MOST_TICKETS + 2)] {
        assert_eq!(sender.same_list_call(&whole, tickets, answers, LONGEST_IMAGE).number, 14);
        assert_eq!(sender.same_list_call(&whole, tickets, answers, 0).number, 14);
        assert_eq!(sender.same_list_call(&whole[1..], tickets, answers, 0).number, 12);
    }
}

for_each_sender! {
    gives_what_single_calls_give
    with_bytes_left_over
    on_damaged_images
    on_changed_contents
    on_every_image_length
    on_overlong_images
    on_full_tables
    on_the_longest_lists
    on_lists_that_are_too_long
}
