//! Texts read as images across the C interface.

use crate::generator::graphs::{broken, grown, image};
use crate::generator::inside::INSIDE;
use crate::generator::outside::OUTSIDE;
use crate::generator::tickets::{ALL_IDS, FEW, MANY, SHARED};
use crate::generator::triples::*;
use crate::generator::{rounds, Random};
use crate::guarded_triples::same_read;
use crate::independent::fact::*;
use crate::independent::graph::Graph;
use crate::independent::table::fresh_graph;
use crate::independent::triples::*;
use vimelosa_host::LONGEST_IMAGE;

/// The number for a text with an output that is long enough. With one exactly as long it is the same, with a
/// shorter one it is 13; a refused text leaves any output alone.
fn read(random: &mut Random, text: &[u8]) -> u64 {
    let (number, _) = same_read(text, LONGEST_IMAGE);
    if number as u16 != 0 {
        assert_eq!(same_read(text, random.pick(&[0, 69, 7_000])).0, number);
        return number;
    }
    let length = (number >> 48) as usize;
    assert_eq!(same_read(text, length).0, number);
    for short in [0, length - 1, random.below(length)] {
        assert_eq!(same_read(text, short).0, 13);
    }
    number
}

/// In order, shuffled with lines repeated, and backwards with every line twice.
#[test]
fn on_texts_of_consistent_graphs() {
    let mut random = Random::for_test("triples_read");
    for round in 0..rounds(300) {
        let graph = grown(&mut random, &ALL_IDS[round % 4], round % 60, 2048);
        let length = image(&without_lone_literals(&graph)).len() as u64;
        let shuffled = shuffled_lines(&mut random, &graph).concat();
        for text in [text_of(&graph), shuffled, backwards_twice(&graph)] {
            assert_eq!(read(&mut random, text.as_bytes()), length << 48);
        }
    }
}

#[test]
fn on_texts_of_any_sort() {
    let mut random = Random::for_test("triples_read_any");
    let mut met = [0; 16];
    for round in 0..rounds(4_000) {
        let text = some_text(&mut random, &ALL_IDS[round % 4]);
        met[usize::from(read(&mut random, &text) as u16)] += 1;
    }
    assert!([0, 3, 15].iter().all(|answer| met[*answer] > 200), "{met:?}");
}

/// Each change that brings a text outside the profile, and each that does not.
#[test]
fn on_each_change() {
    let mut random = Random::for_test("triples_read_changed");
    for round in 0..rounds(40) {
        for (place, (_, change)) in OUTSIDE.iter().chain(INSIDE).enumerate() {
            let graph = grown(&mut random, &ALL_IDS[round % 4], round % 40, 200);
            let mut lines = shuffled_lines(&mut random, &graph);
            change(&mut random, &mut lines);
            let (number, _) = same_read(lines.concat().as_bytes(), LONGEST_IMAGE);
            assert!(place >= OUTSIDE.len() || number == 15, "{lines:?}");
        }
    }
}

/// A text cut off at every place, and with each byte taken out, doubled, changed in one bit, or another.
#[test]
fn on_every_byte_of_a_text() {
    let graph = Graph::of([class(0), property(25), domain(25, 0), range(25, 1), individual(6), member(6, 0)]);
    let text = text_of(&Graph::of(graph.facts().chain([literal(100), value(6, 100, 25), exclusive(25)])));
    assert_eq!(same_read(text.as_bytes(), LONGEST_IMAGE).0 as u16, 0);
    for place in 0..text.len() {
        let (before, after) = text.as_bytes().split_at(place);
        let same = |parts: &[&[u8]]| same_read(&parts.concat(), LONGEST_IMAGE);
        same(&[before]);
        same(&[after]);
        same(&[before, &after[1..]]);
        same(&[before, &after[..1], after]);
        for bit in 0..8 {
            same(&[before, &[after[0] ^ 1 << bit], &after[1..]]);
        }
        for byte in [0, b' ', b'\n', b'\r', b'\t', b'0', b'1', b'.', b'"', b'<', b'>'] {
            same(&[before, &[byte], &after[1..]]);
            same(&[before, &[byte], after]);
        }
    }
}

/// Numbers from 0 to 300 and some longer ones, with and without leading zeros, at every place of a line.
#[test]
fn on_numbers_at_every_place() {
    let long = [1_000, 2_550, 65_538, 65_791, 4_294_967_298, 18_446_744_073_709_551_618u128];
    let numbers = (0..=300).chain(long).flat_map(|n| [format!("{n}"), format!("{n:02}"), format!("{n:03}")]);
    let odd = ["", "+2", "-2", "2.", "2a", "a", "00", "0000", ":", "/", "1:", "25:", "2/"].map(String::from);
    for number in numbers.chain(odd) {
        let (id, quoted) = (format!("<urn:id:{number}>"), format!("\"{number}\""));
        let (class, exclusive) = (Term::Class.text(), Term::Exclusive.text());
        for [subject, predicate, object] in [
            [&id, &Term::Type.text(), &class],
            [&id, &Term::Type.text(), &exclusive],
            [&id, &Term::SubpropertyOf.text(), &id],
            [&Term::Id(0).text(), &Term::SubclassOf.text(), &id],
            [&Term::Id(7).text(), &id, &id],
            [&Term::Id(7).text(), &Term::Id(8).text(), &quoted],
            [&Term::Id(7).text(), &id, &quoted],
            [&quoted, &Term::Type.text(), &class],
        ] {
            let line = format!("{subject} {predicate} {object} .\n");
            same_read(format!("{}{line}", text_of(&fresh_graph())).as_bytes(), LONGEST_IMAGE);
        }
    }
}

/// A rule that texts break first, by its place; only rule 14 is not among them, as Ind(a) comes with CI(a,0).
#[test]
fn tells_the_rules_of_broken_graphs() {
    let mut random = Random::for_test("triples_read_rules");
    let mut met = [0; 31];
    for round in 0..rounds(6_000) {
        let graph = broken(&mut random, [&SHARED, &FEW, &MANY][round % 3]);
        let (number, _) = same_read(text_of(&graph).as_bytes(), LONGEST_IMAGE);
        met[usize::from((number >> 16) as u16)] += usize::from(number as u16 == 3);
    }
    let broken: Vec<usize> = (1..31).filter(|place| met[*place] > 0).collect();
    assert!(broken.len() >= 27 && met[11] == 0 && met[29] > 0 && met[30] > 0, "{met:?}");
}

/// About as many facts as a table has words, more, and a bad line after them.
#[test]
fn on_crowded_texts() {
    let mut random = Random::for_test("triples_read_crowded");
    for (text, answer) in crowded_texts(&mut random) {
        assert_eq!(read(&mut random, text.as_bytes()) as u16, u16::from(answer));
    }
    let longest = text_of(&longest_text());
    assert_eq!(read(&mut random, longest.as_bytes()) as u16, 0);
}

/// A text with repeats has no greatest length.
#[test]
fn on_long_texts() {
    let mut random = Random::for_test("triples_read_long");
    let graph = without_lone_literals(&grown(&mut random, &MANY, 60, 200));
    let long = text_of(&graph).repeat(3_000_000 / text_of(&graph).len());
    let number = (image(&graph).len() as u64) << 48;
    assert_eq!(same_read(long.as_bytes(), LONGEST_IMAGE).0, number);
    assert_eq!(same_read(&long.as_bytes()[..long.len() - 1], LONGEST_IMAGE).0, 15);
    assert_eq!(same_read(format!("{long}\n").as_bytes(), LONGEST_IMAGE).0, 15);
    assert_eq!(same_read(&vec![b' '; 3_000_000], LONGEST_IMAGE).0, 15);
    assert_eq!(same_read(&vec![b'\n'; 3_000_000], LONGEST_IMAGE).0, 15);
}
