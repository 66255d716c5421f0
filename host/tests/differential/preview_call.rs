//! Asking and committing on images, tickets, runs and outputs of every sort.

use crate::generator::graphs::{filled, grown, image, overlong, some_image_of};
use crate::generator::previews::{exact_runs, plant, preview_ticket, run_lengths, some_runs, Runs};
use crate::generator::tickets::{any_ticket, Ids, ALL_IDS, FEW, MANY};
use crate::generator::{calls, rounds, Random};
use crate::guarded_previews::{asked_runs, same_ask, same_commit, same_in_two};
use crate::independent::graph::Graph;
use crate::independent::image::read;
use crate::independent::table::{fresh_graph, MOST_WORDS};
use vimelosa_host::LONGEST_IMAGE;

/// How often each number is given.
type Met = [usize; 19];

/// The words of a good image as the calls have them.
fn table_of(image: &[u8]) -> Vec<u32> {
    let mut table = vec![0; MOST_WORDS];
    assert_eq!(read(image, &mut table), 0);
    table
}

/// A ticket asked about with runs of about the words written, and committed with runs that are exact, damaged
/// or of another graph, to an output that is now and then short.
fn look_and_agree(random: &mut Random, ids: &Ids, graph: &Graph, met: &mut [Met; 2]) {
    let whole = some_image_of(random, graph);
    let table = table_of(&whole);
    let ticket = preview_ticket(random, ids, graph);
    let exact = exact_runs(&table, &ticket);
    assert_eq!(asked_runs(&whole, &ticket), exact);
    let (asked, _) = same_ask(&whole, &ticket, run_lengths(random, &exact));
    let runs = some_runs(random, ids, &table, &ticket);
    let around = random.below(whole.len() + 8);
    let length = if random.is_one_in(6) { around } else { LONGEST_IMAGE };
    let (committed, _) = same_commit(&whole, &ticket, &runs, length);
    for (met, number) in met.iter_mut().zip([asked, committed]) {
        met[usize::from(number as u16)] += 1;
    }
}

/// Every number that five bytes and their runs get on a table with room is met.
#[test]
fn on_plants() {
    let mut random = Random::for_test("preview_call_on_plants");
    let mut met = [[0; 19]; 2];
    for round in 0..rounds(1_200) {
        let ids = &ALL_IDS[round % 4];
        let graph = plant(&mut random, ids);
        look_and_agree(&mut random, ids, &graph, &mut met);
    }
    let [asked, committed] = met;
    let numbers = [0, 5, 6, 7, 8, 9, 10, 16];
    assert!(numbers.iter().all(|number| asked[*number] > 3 && committed[*number] > 3), "{met:?}");
    assert!(asked[13] > 50 && committed[13] > 10 && committed[18] > 100, "{met:?}");
}

/// So too on full tables and on nearly full ones, where a deletion takes much along.
#[test]
fn on_full_tables() {
    let mut random = Random::for_test("preview_call_on_full_tables");
    let mut met = [[0; 19]; 2];
    for round in 0..rounds(9) {
        let graph = filled(&mut random, [2048, 2047, 2040][round % 3]);
        for _ in 0..12 {
            look_and_agree(&mut random, &MANY, &graph, &mut met);
        }
    }
    let [asked, committed] = met;
    assert!([0, 11].iter().all(|number| asked[*number] > 3 && committed[*number] > 3), "{met:?}");
    assert!(asked[13] > 3 && committed[18] > 3, "{met:?}");
}

/// Asking and then committing is the single call.
#[test]
fn in_two_calls_on_growing_graphs() {
    let mut random = Random::for_test("preview_call_on_growing_graphs");
    calls::on_growing_graphs(&mut random, rounds(60), same_in_two);
}

#[test]
fn in_two_calls_on_full_tables() {
    let mut random = Random::for_test("preview_call_in_two_on_full_tables");
    let met = calls::on_full_tables(&mut random, rounds(3), any_ticket, same_in_two);
    assert!([0, 10, 11, 16].iter().all(|number| met[*number] > 2), "{met:?}");
}

#[test]
fn in_two_calls_on_damaged_images() {
    let mut random = Random::for_test("preview_call_on_damaged_images");
    calls::on_damaged_images(&mut random, rounds(150), same_in_two);
}

#[test]
fn in_two_calls_on_changed_contents() {
    let mut random = Random::for_test("preview_call_on_changed_contents");
    calls::on_changed_contents(&mut random, same_in_two);
}

#[test]
fn in_two_calls_on_every_image_length() {
    let mut random = Random::for_test("preview_call_on_every_image_length");
    calls::on_every_image_length(&mut random, same_in_two);
}

#[test]
fn in_two_calls_on_every_ticket_length() {
    let mut random = Random::for_test("preview_call_on_every_ticket_length");
    calls::on_every_ticket_length(&mut random, [1, 1, 2, 0, 0], same_in_two);
}

#[test]
fn in_two_calls_on_every_output_length() {
    let mut random = Random::for_test("preview_call_on_every_output_length");
    calls::on_every_output_length(&mut random, rounds(2), [[1, 3, 77, 0, 0], [2, 1, 3, 0, 0]], same_in_two);
}

#[test]
fn in_two_calls_with_the_output_one_byte_short() {
    let mut random = Random::for_test("preview_call_one_byte_short");
    calls::with_the_output_one_byte_short(&mut random, rounds(60), any_ticket, same_in_two);
}

/// An image of a graph with classes, members and properties, an insertion and a deletion on it, and what each
/// adds and removes, which is something.
fn accepted(random: &mut Random) -> (Vec<u8>, Vec<([u8; 5], Runs)>) {
    let whole = image(&grown(random, &FEW, 30, 60));
    let classes = (2..=255).map(|class| [2, 1, class, 0, 0]);
    let changes = |ticket: &[u8; 5]| asked_runs(&whole, ticket).concat().len() > 1;
    let gone = classes.into_iter().find(changes).expect("there is a class");
    let tickets = [[1, 3, 77, 0, 0], gone].map(|ticket| (ticket, asked_runs(&whole, &ticket)));
    (whole, tickets.to_vec())
}

/// Runs of every length up to three words more than are written: 13 exactly if one of them is shorter.
#[test]
fn on_every_run_length() {
    let mut random = Random::for_test("preview_call_on_every_run_length");
    for _ in 0..rounds(4) {
        let (whole, tickets) = accepted(&mut random);
        for (ticket, [added, removed]) in tickets {
            for come in 0..added.len() + 3 {
                for go in 0..removed.len() + 3 {
                    let is_short = come < added.len() || go < removed.len();
                    let (number, _) = same_ask(&whole, &ticket, [come, go]);
                    assert_eq!(number as u16, if is_short { 13 } else { 0 });
                }
            }
        }
    }
}

/// The runs exchanged; words behind them; each word left out, doubled, changed, or with a 0 before it.
fn changed(random: &mut Random, exact: &Runs) -> Vec<Runs> {
    let mut others = vec![[exact[1].clone(), exact[0].clone()]];
    for side in [0, 1] {
        let mut push = |parts: &[&[u32]]| {
            let mut runs = exact.clone();
            runs[side] = parts.concat();
            others.push(runs);
        };
        let run = &exact[side];
        push(&[run, &[0]]);
        push(&[run, run, &[0x0102_0000]]);
        push(&[run, &[0; MOST_WORDS]]);
        for (place, word) in run.iter().enumerate() {
            let (front, back) = run.split_at(place);
            push(&[front, &back[1..]]);
            push(&[front, &[*word], back]);
            push(&[front, &[0], back]);
            push(&[front, &[word ^ 1 << random.below(32)], &back[1..]]);
        }
    }
    others
}

/// Runs that are not exact are out of date, whatever the output is.
#[test]
fn on_runs_that_are_not_exact() {
    let mut random = Random::for_test("preview_call_on_runs_that_are_not_exact");
    for _ in 0..rounds(4) {
        let (whole, tickets) = accepted(&mut random);
        for (ticket, exact) in tickets {
            for runs in changed(&mut random, &exact) {
                let length = random.pick(&[0, 80, LONGEST_IMAGE]);
                assert_eq!(same_commit(&whole, &ticket, &runs, length).0, 18, "{runs:x?}");
            }
            assert_eq!(same_commit(&whole, &ticket, &exact, LONGEST_IMAGE).0 as u16, 0);
            assert_eq!(same_commit(&whole, &ticket, &exact, 68).0, 13);
        }
    }
}

/// A ticket that changes nothing is asked about with no words and committed with none.
#[test]
fn with_empty_buffers() {
    let (whole, nothing) = (image(&fresh_graph()), [vec![], vec![]]);
    let repeat = [1, 1, 0, 0, 0];
    assert_eq!(same_ask(&whole, &repeat, [0, 0]), (0, nothing.clone()));
    assert_eq!(same_commit(&whole, &repeat, &nothing, whole.len()).0, (whole.len() as u64) << 48);
    assert_eq!(same_commit(&whole, &repeat, &nothing, 0).0, 13);
    assert_eq!(same_commit(&whole, &repeat, &[vec![], vec![0]], 0).0, 18);
    assert_eq!(same_ask(&whole, &[], [0, 0]).0, 4);
    assert_eq!(same_commit(&whole, &[], &nothing, 0).0, 4);
    assert_eq!(same_ask(&[], &[], [0, 0]).0, 12);
    assert_eq!(same_commit(&[], &[], &nothing, 0).0, 12);
    let overlong = image(&overlong());
    assert_eq!(same_ask(&overlong, &repeat, [0, 0]).0, 11);
    assert_eq!(same_commit(&overlong, &repeat, &nothing, 0).0, 11);
}
