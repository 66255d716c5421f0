//! The list call with answers and outputs of every length, for the plain calls and for the operators'.

use crate::generator::graphs::{grown, image};
use crate::generator::tickets::{Ids, ALL_IDS, FEW, MANY};
use crate::generator::{rounds, Random};
use crate::guarded::Sender;
use crate::list_call::{count_tickets, fresh_image};
use vimelosa_host::LONGEST_IMAGE;

/// From none to three more than there are tickets.
fn with_every_number_of_answer_bytes(sender: &Sender) {
    let mut random = Random::for_test("list_call_with_every_number_of_answer_bytes");
    for round in 0..rounds(12) {
        let whole = image(&grown(&mut random, &MANY, 20, 2048));
        let list = (sender.list)(&mut random, &MANY, round % 12);
        let count = count_tickets(&list);
        for answers in 0..count + 4 {
            let listed = sender.same_list_call(&whole, &list, answers, LONGEST_IMAGE);
            assert_eq!(listed.answer(), if answers < count { 14 } else { 0 });
        }
    }
}

/// Every length of the output up to some bytes more than the new image. 13 leaves the answers too.
fn with_every_output_length(sender: &Sender) {
    let mut random = Random::for_test("list_call_with_every_output_length");
    for round in 0..rounds(4) {
        let ids = Ids { deletions: 3, ..FEW };
        let whole = image(&grown(&mut random, &ids, 20, 60));
        let list = (sender.list)(&mut random, &ids, 3 * (round % 4));
        let answers = count_tickets(&list) + 2;
        let listed = sender.same_list_call(&whole, &list, answers, LONGEST_IMAGE);
        let length = listed.image().len();
        assert!(length > 68);
        for short in 0..length {
            assert_eq!(sender.same_list_call(&whole, &list, answers, short).number, 13);
        }
        for long in length..length + 4 {
            assert_eq!(sender.same_list_call(&whole, &list, answers, long).number, listed.number);
        }
    }
}

/// One byte short for many lists: the image at the end counts, not the old one and none on the way.
fn with_the_output_one_byte_short(sender: &Sender) {
    let mut random = Random::for_test("list_call_one_byte_short");
    for round in 0..rounds(120) {
        let ids = Ids { deletions: 2, ..ALL_IDS[round % 4] };
        let whole = image(&grown(&mut random, &ids, 30, 2048));
        let list = (sender.list)(&mut random, &ids, 1 + round % 8);
        let answers = count_tickets(&list) + random.below(2);
        let listed = sender.same_list_call(&whole, &list, answers, LONGEST_IMAGE);
        let length = listed.image().len();
        assert_eq!(sender.same_list_call(&whole, &list, answers, length - 1).number, 13);
        assert_eq!(sender.same_list_call(&whole, &list, answers, length).number, listed.number);
        let (below_longest, above_longest) = (LONGEST_IMAGE - 1, LONGEST_IMAGE + 1);
        assert_eq!(sender.same_list_call(&whole, &list, answers, below_longest).number, listed.number);
        assert_eq!(sender.same_list_call(&whole, &list, answers, above_longest).number, listed.number);
    }
}

/// A list that puts in 80 individuals and takes them out again, with room for what is left at the end.
fn with_room_for_the_last_image_only(sender: &Sender) {
    let put_in = (100..180).map(|x| [1, 3, x, 0, 0]);
    let taken_out = (100..180).map(|x| [2, 3, x, 0, 0]);
    let list: Vec<u8> = put_in.chain(taken_out).flatten().collect();
    let whole = fresh_image();
    let listed = sender.same_list_call(&whole, &list, 160, whole.len());
    assert_eq!((listed.counts(), listed.image()), ((160, 0), &whole[..]));
    assert_eq!(sender.same_list_call(&whole, &list, 160, whole.len() - 1).number, 13);
    assert_eq!(sender.same_list_call(&whole, &list[..400], 80, whole.len()).number, 13);
}

fn with_empty_buffers(sender: &Sender) {
    let whole = image(&grown(&mut Random::for_test("list_call_with_empty_buffers"), &FEW, 20, 60));
    let ticket = [1, 4, 99, 0, 0];
    let answers = |image: &[u8], list: &[u8], answers: usize, output: usize| {
        sender.same_list_call(image, list, answers, output).answer()
    };
    assert_eq!(answers(&[], &[], 0, 0), 12);
    assert_eq!(answers(&[], &ticket, 1, LONGEST_IMAGE), 12);
    assert_eq!(answers(&whole, &ticket, 0, LONGEST_IMAGE), 14);
    assert_eq!(answers(&whole, &ticket, 0, 0), 14);
    assert_eq!(answers(&whole, &ticket, 1, 0), 13);
    assert_eq!(answers(&whole, &[], 0, 0), 13);
    let copied = sender.same_list_call(&whole, &[], 0, whole.len());
    assert_eq!((copied.answer(), copied.counts(), copied.image()), (0, (0, 0), &whole[..]));
}

for_each_sender! {
    with_every_number_of_answer_bytes
    with_every_output_length
    with_the_output_one_byte_short
    with_room_for_the_last_image_only
    with_empty_buffers
}
