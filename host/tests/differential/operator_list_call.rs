//! The operators' list call on growing graphs; `list_call` and `list_buffers` have the tests that it shares
//! with the plain one.

use crate::generator::graphs::{grown, image, ten_entries};
use crate::generator::operators::operator_list;
use crate::generator::tickets::{holders, list, Ids, ALL_IDS, MANY};
use crate::generator::{rounds, Random};
use crate::guarded::{Listed, OPERATOR, PLAIN};
use crate::independent::image::facts_in;
use crate::list_call::count_tickets;
use vimelosa_host::LONGEST_IMAGE;

/// Counts the numbers of a list's tickets.
fn count_numbers(met: &mut [usize; 18], listed: &Listed, list: &[u8]) {
    for number in &listed.answers[..count_tickets(list)] {
        met[usize::from(*number)] += 1;
    }
}

/// The words of an image's facts of the kinds that are not for operators.
fn other_words(image: &[u8]) -> Vec<u32> {
    let facts = facts_in(image).expect("the image is good");
    let others = facts.facts().filter(|fact| ![3, 4, 9, 10].contains(&fact.kind));
    others.map(|fact| fact.word()).collect()
}

/// Lists of 0 to 60 tickets by turns: one that the plain call runs and two that the operators' runs, each on
/// what the one before left until that is large. Whatever the operators' lists are, the facts of other kinds
/// stay. Every number that a ticket gets on a table with room is met.
#[test]
fn on_growing_graphs() {
    let mut random = Random::for_test("operator_list_call_on_growing_graphs");
    let mut met = [0; 18];
    for round in 0..rounds(4) {
        let ids = &ALL_IDS[round % 4];
        let mut held = image(&grown(&mut random, ids, 20, 2048));
        for count in 0..=60 {
            if held.len() > 800 {
                held = image(&grown(&mut random, ids, 20, 2048));
            }
            let plain = list(&mut random, ids, count / 4);
            held = PLAIN.same_list_call(&held, &plain, count_tickets(&plain), LONGEST_IMAGE).image().to_vec();
            for _ in 0..2 {
                let own = operator_list(&mut random, ids, count);
                let answers = count_tickets(&own) + random.below(3);
                let listed = OPERATOR.same_list_call(&held, &own, answers, LONGEST_IMAGE);
                assert_eq!((listed.answer(), other_words(listed.image())), (0, other_words(&held)));
                count_numbers(&mut met, &listed, &own);
                held = listed.image().to_vec();
            }
        }
    }
    assert!([0, 4, 5, 6, 7, 17, 8, 9, 16, 10].iter().all(|number| met[*number] > 5), "{met:?}");
}

/// Lists about exclusive properties by turns, by the plain call and then by the operators', which takes the
/// values alone; the first image has ten entries.
#[test]
fn on_exclusive_properties() {
    let mut random = Random::for_test("operator_list_call_on_exclusive_properties");
    let mut met = [0; 18];
    for round in 0..rounds(40) {
        let ids = Ids { deletions: 4, ..ALL_IDS[round % 4] };
        let mut held = ten_entries(&grown(&mut random, &ids, 5, 60));
        for count in [0, 1, 30, 60] {
            let (plain, own) = (holders(&mut random, &ids, count), holders(&mut random, &ids, count));
            held = PLAIN.same_list_call(&held, &plain, count_tickets(&plain), LONGEST_IMAGE).image().to_vec();
            let listed = OPERATOR.same_list_call(&held, &own, count_tickets(&own), LONGEST_IMAGE);
            assert_eq!(other_words(listed.image()), other_words(&held));
            count_numbers(&mut met, &listed, &own);
            held = listed.image().to_vec();
        }
    }
    assert!([0, 10, 17].iter().all(|number| met[*number] > 50), "{met:?}");
}

/// What is left is what the plain call leaves of the list without the tickets of other kinds.
#[test]
fn leaves_out_what_is_not_for_operators() {
    let mut random = Random::for_test("operator_list_call_leaves_out");
    for _ in 0..rounds(20) {
        let whole = image(&grown(&mut random, &MANY, 30, 2048));
        let own = operator_list(&mut random, &MANY, 40);
        let theirs = own.chunks(5).filter(|ticket| ticket.len() < 5 || [3, 4, 9, 10].contains(&ticket[1]));
        let theirs: Vec<u8> = theirs.flatten().copied().collect();
        let answers = count_tickets(&own);
        let listed = OPERATOR.same_list_call(&whole, &own, answers, LONGEST_IMAGE);
        let without = PLAIN.same_list_call(&whole, &theirs, answers, LONGEST_IMAGE);
        assert_eq!(listed.image(), without.image());
        assert_eq!(listed.counts().0, without.counts().0);
    }
}
