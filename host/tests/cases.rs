//! The cases of document 01 on the independent implementation, and every refusal of documents 01 and 02 in
//! its place.

mod independent;
mod vector_files;

use independent::fact::*;
use independent::image::{body, image_of, image_with, read, write};
use independent::list::{apply_list, ListAnswer};
use independent::programs::{print_answers, print_facts, words_of};
use independent::table::{check, facts_of, fresh, fresh_graph, fresh_table, lookup};
use independent::ticket::{apply, Answer};
use vector_files::bytes;

/// P1 to P12: the ticket and its answer, added and removed.
const CASES: [(&str, [usize; 3]); 12] = [
    ("0101020000", [0, 2, 0]),
    ("0105030200", [0, 3, 0]),
    ("0109040300", [0, 4, 0]),
    ("0209040200", [0, 0, 2]),
    ("0105020300", [10, 0, 0]),
    ("0102050201", [0, 3, 0]),
    ("010a060705", [0, 5, 0]),
    ("010a060605", [10, 0, 0]),
    ("0106050600", [9, 0, 0]),
    ("0205020000", [8, 0, 0]),
    ("0109030300", [10, 0, 0]),
    ("0101010000", [7, 0, 0]),
];

fn answer([number, added, removed]: [usize; 3]) -> Answer {
    Answer { number: number as u8, added, removed }
}

/// The table that the first `count` cases leave.
fn table_after(count: usize) -> Vec<u32> {
    let mut table = fresh_table(2048);
    for (ticket, _) in &CASES[..count] {
        apply(&mut table, &bytes(ticket));
    }
    table
}

fn words(facts: &[Fact]) -> Vec<u32> {
    facts.iter().map(Fact::word).collect()
}

#[test]
fn cases_p1_to_p12() {
    let mut table = fresh_table(2048);
    for (ticket, expected) in CASES {
        assert_eq!(apply(&mut table, &bytes(ticket)), answer(expected), "{ticket}");
        assert_eq!(check(&table), 0);
    }
}

#[test]
fn first_five_cases_through_program_one() {
    let list = bytes("01010200000105030200010904030002090402000105020300");
    assert_eq!(print_answers(&list), "0 2 0\n0 3 0\n0 4 0\n0 0 2\n10 0 0\n8\n");
}

#[test]
fn case_p7_adds_the_facts_named() {
    let (before, after) = (words_of(&table_after(6)), words_of(&table_after(7)));
    let new: Vec<u32> = after.into_iter().filter(|w| !before.contains(w)).collect();
    let named = [individual(6), literal(7), member(6, 0), member(6, 2), value(6, 7, 5)];
    assert_eq!(new, words(&named));
}

#[test]
fn tables_of_two_and_three_words() {
    let first = bytes(CASES[0].0);
    let mut two = fresh_table(2);
    assert_eq!(apply(&mut two, &first), Answer::refused(11));
    assert_eq!(two, [16777216, 0]);
    let mut three = fresh_table(3);
    assert_eq!(apply(&mut three, &first), answer([0, 2, 0]));
    assert_eq!(three, words(&[class(0), class(2), subclass(2, 0)]));
}

#[test]
fn program_one_with_nothing_and_with_leftover_bytes() {
    assert_eq!(print_answers(&[]), "1\n");
    assert_eq!(print_answers(&bytes("010102000001")), "0 2 0\n4 0 0\n3\n");
    assert_eq!(print_answers(&bytes("01010200")), "4 0 0\n1\n");
}

#[test]
fn program_two_prints_words_or_nothing() {
    let image = image_of(&fresh_graph()).unwrap();
    assert_eq!(print_facts(&image), "16777216\n");
    assert_eq!(print_facts(&image[..68]), "");
    assert_eq!(print_facts(&[]), "");
}

#[test]
fn bad_size_is_refusal_1() {
    for length in [0, 2049] {
        let mut table = vec![7; length];
        assert_eq!(fresh(&mut table), 1);
        assert_eq!(check(&table), 1);
        assert_eq!(lookup(&table, 7), (1, false));
        assert_eq!(apply(&mut table, &[]), Answer::refused(1));
        assert_eq!(read(&[], &mut table), 1);
        assert_eq!(write(&table, &mut []), (1, 0));
        assert_eq!(table, vec![7; length]);
    }
}

#[test]
fn bad_layout_is_refusal_2() {
    let laid_wrong: [&[u32]; 10] = [
        &[0, 16777216],
        &[16777216, 16777216],
        &[0x0500_0200, 16777216],
        &[16777216, 0x0101_0000],
        &[16777216, 0x0900_0100],
        &[16777217],
        &[16777216, 0x0b01_0000],
        &[16777216, 0x0b02_0100],
        &[16777216, 0x0b02_0002],
        &[0x0c00_0000],
    ];
    for words in laid_wrong {
        let mut table = words.to_vec();
        assert_eq!(check(&table), 2, "{words:x?}");
        assert_eq!(lookup(&table, words[0]), (2, false));
        assert_eq!(apply(&mut table, &[]), Answer::refused(2));
        assert_eq!(table, words);
    }
}

#[test]
fn lookup_needs_no_consistent_table() {
    let table = [individual(4).word(), 0];
    assert_eq!(check(&table), 3);
    assert_eq!(lookup(&table, individual(4).word()), (0, true));
    assert_eq!(lookup(&table, 0), (0, false));
    assert_eq!(check(&[0, 0]), 3);
}

#[test]
fn mark_stands_only_as_a_range() {
    assert!(Fact::of_word(range(5, MARK).word()).is_some());
    let elsewhere = [class(1), range(1, 2), domain(5, 1), value(4, 5, 1), exclusive(1)];
    assert!(elsewhere.iter().all(|f| Fact::of_word(f.word()).is_none()));
}

/// Each ticket on the table after P7, with the refusal it gets.
#[test]
fn ticket_refusals_4_to_9_then_16_then_10() {
    let refused = [
        ("", 4),
        ("01010200", 4),
        ("010102000000", 4),
        ("0001020000", 5),
        ("0300ff0101", 5),
        ("0100020000", 6),
        ("0107050200", 6),
        ("0208050101", 6),
        ("010c020000", 6),
        ("020c050000", 6),
        ("0101020001", 7),
        ("0101090200", 7),
        ("0202050200", 7),
        ("0102050101", 7),
        ("0102010201", 7),
        ("010a060105", 7),
        ("0209010000", 7),
        ("010b010000", 7),
        ("020b010000", 7),
        ("010b050500", 7),
        ("010b050001", 7),
        ("020b050005", 7),
        ("0201000000", 8),
        ("0205ee0000", 8),
        ("0209ee0000", 8),
        ("010a060709", 9),
        ("0106050900", 9),
        ("0106090500", 9),
        ("0106090900", 9),
        ("010b000000", 9),
        ("010b020000", 9),
        ("010b060000", 9),
        ("010b070000", 9),
        ("010b090000", 9),
        ("0109040900", 16),
        ("0109040500", 16),
        ("0109040600", 16),
        ("0109040700", 16),
        ("0109040400", 16),
        ("0109090900", 16),
        ("0109000900", 16),
        ("0109030900", 16),
        ("0109000200", 10),
        ("0109050200", 10),
        ("0109070200", 10),
        ("0109000000", 10),
        ("0106050500", 10),
        ("0102050301", 10),
        ("0103020000", 10),
        ("0104060000", 10),
        ("0105000200", 10),
        ("0105020200", 10),
    ];
    for (ticket, number) in refused {
        let mut table = table_after(7);
        assert_eq!(apply(&mut table, &bytes(ticket)).number, number, "{ticket}");
        assert_eq!(table, table_after(7));
    }
}

#[test]
fn what_is_there_or_gone_changes_nothing() {
    let there = ["0101000000", "0102050201", "010a060705", "0109060200"];
    let gone = ["0206020000", "020a060709", "0202000000", "0209040200", "0209040900", "0209040500"];
    let no_mark = ["020b050000", "020b000000", "020b020000", "020b090000"];
    for ticket in there.into_iter().chain(gone).chain(no_mark) {
        let mut table = table_after(7);
        assert_eq!(apply(&mut table, &bytes(ticket)), answer([0, 0, 0]), "{ticket}");
        assert_eq!(table, table_after(7));
    }
}

#[test]
fn unknown_class_comes_before_a_clash_and_a_clash_before_a_full_table() {
    let mut table = table_after(7);
    table.truncate(words_of(&table).len());
    assert_eq!(apply(&mut table, &bytes("0109030900")).number, 16);
    assert_eq!(apply(&mut table, &bytes("0109040900")).number, 16);
    assert_eq!(apply(&mut table, &bytes("0109030200")).number, 10);
    assert_eq!(apply(&mut table, &bytes("0109040200")).number, 11);
    assert_eq!(apply(&mut table, &bytes("0101020000")).number, 0);
}

#[test]
fn list_answers_each_ticket_and_leaves_the_other_bytes() {
    let list: Vec<u8> = CASES.iter().flat_map(|(ticket, _)| bytes(ticket)).collect();
    let list = [list.as_slice(), &[1, 2, 3]].concat();
    let (mut table, mut answers) = (fresh_table(2048), [99; 15]);
    let whole = apply_list(&mut table, &list, &mut answers);
    let (accepted, refused) = (6, 7);
    assert_eq!(whole, ListAnswer { number: 0, accepted, refused });
    assert_eq!(answers, [0, 0, 0, 0, 10, 0, 0, 10, 9, 8, 10, 7, 4, 99, 99]);
    assert_eq!(table, table_after(12));
}

#[test]
fn list_refusals_leave_all_as_it_was() {
    let refused = |number| ListAnswer { number, accepted: 0, refused: 0 };
    let list = bytes("010102000001");
    let mut answers = [99; 1];
    assert_eq!(apply_list(&mut [], &list, &mut answers), refused(1));
    assert_eq!(apply_list(&mut [5], &list, &mut answers), refused(2));
    assert_eq!(apply_list(&mut [0], &list, &mut answers), refused(3));
    let mut table = fresh_table(9);
    assert_eq!(apply_list(&mut table, &list, &mut answers), refused(14));
    assert_eq!((table, answers), (fresh_table(9), [99]));
}

#[test]
fn body_of_a_kind_is_a_part_of_the_image() {
    let mut image = [0; 200];
    let (number, length) = write(&table_after(12), &mut image);
    let image = &image[..length];
    assert_eq!((number, length), (0, 68 + 7 + 2 * 8 + 3));
    assert_eq!(body(image, CLASS), [0, 2, 3]);
    assert_eq!(body(image, RANGE), [5, 1]);
    assert_eq!(body(image, VALUE), [6, 7, 5]);
    for (kind, start) in [
        (SUBPROPERTY, body(image, DOMAIN).as_ptr()),
        (0, image.as_ptr_range().end),
        (11, image.as_ptr_range().end),
        (12, image.as_ptr_range().end),
    ] {
        assert_eq!((body(image, kind).len(), body(image, kind).as_ptr()), (0, start));
    }
    assert_eq!(body(&image[..70], CLASS).as_ptr(), image[70..].as_ptr());
}

/// Excl in an image with eleven entries, and the same facts without it in one with ten.
#[test]
fn body_of_the_exclusive_kind() {
    let mut table = table_after(12);
    apply(&mut table, &bytes("010b050000"));
    let graph = facts_of(&table).unwrap();
    let image = image_of(&graph).unwrap();
    assert_eq!(image.len(), 68 + 7 + 2 * 8 + 3 + 1);
    assert_eq!((body(&image, EXCLUSIVE), body(&image, VALUE)), (&[5][..], &[6, 7, 5][..]));
    let fewer = image_with(10, &graph).unwrap();
    assert_eq!(fewer.len(), 62 + 7 + 2 * 8 + 3);
    assert_eq!((body(&fewer, CLASS), body(&fewer, VALUE)), (&[0, 2, 3][..], &[6, 7, 5][..]));
    for kind in [0, 11, 12, 255] {
        assert_eq!((body(&fewer, kind).len(), body(&fewer, kind).as_ptr()), (0, fewer.as_ptr_range().end));
    }
    let mut again = vec![7; 17];
    assert_eq!((read(&image, &mut again), facts_of(&again)), (0, Ok(graph.clone())));
    assert_eq!((read(&fewer, &mut again), facts_of(&again)), (0, Ok(graph.without(exclusive(5)))));
}
