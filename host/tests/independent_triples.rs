//! Triples on the independent implementation: the worked examples, the lines of facts, round trips, the calls
//! and the programs.

mod generator;
mod independent;

use generator::graphs::{filled, grown};
use generator::tickets::ALL_IDS;
use generator::triples::*;
use generator::{rounds, Random};
use independent::fact::*;
use independent::graph::Graph;
use independent::host::{host_read_triples, host_write_triples};
use independent::image::image_of;
use independent::programs::{print_answer, print_image, print_text, run_tickets, LONGEST_TAKEN};
use independent::table::{facts_of, fresh_graph, store, MOST_WORDS};
use independent::triples::*;
use std::collections::BTreeSet;

/// P1 to P7 of document 01.
const TICKETS: [[u8; 5]; 7] = [
    [1, 1, 2, 0, 0],
    [1, 5, 3, 2, 0],
    [1, 9, 4, 3, 0],
    [2, 9, 4, 2, 0],
    [1, 5, 2, 3, 0],
    [1, 2, 5, 2, 1],
    [1, 10, 6, 7, 5],
];

/// What P1 to P7 leave of a fresh graph.
fn plant() -> Graph {
    let (_, words) = run_tickets(&TICKETS.concat());
    Graph::of(words.iter().map(|word| Fact::of_word(*word).expect("a table has facts")))
}

fn table_of(graph: &Graph, words: usize) -> Vec<u32> {
    let mut table = vec![0; words];
    store(graph, &mut table);
    table
}

fn random_graph(random: &mut Random, round: usize) -> Graph {
    grown(random, &ALL_IDS[round % 4], round % 60, MOST_WORDS)
}

/// The answer of reading a text into 2,048 words, and the graph that they then hold; refused, they are as
/// lent.
fn read(text: &[u8]) -> (u8, Option<Graph>) {
    let mut table = vec![9; MOST_WORDS];
    match read_triples(text, &mut table) {
        0 => (0, Some(facts_of(&table).expect("the table is laid out"))),
        refusal => {
            assert!(table.iter().all(|word| *word == 9));
            (refusal, None)
        }
    }
}

#[test]
fn the_plant_has_13_lines_and_1273_bytes() {
    let graph = plant();
    assert_eq!(graph.len(), 16);
    let lines = lines_of(&graph);
    let lengths: Vec<usize> = lines.iter().map(String::len).collect();
    assert_eq!(lengths, [145, 108, 108, 117, 111, 111, 74, 70, 105, 111, 111, 74, 28]);
    assert_eq!(text_of(&graph).len(), 1_273);
    assert_eq!(lines[12], "<urn:id:6> <urn:id:5> \"7\" .\n");
    let with_lone = Graph::of(graph.facts().chain([literal(9)]));
    assert_eq!(text_of(&with_lone), text_of(&graph));
    assert_eq!(read(text_of(&with_lone).as_bytes()), (0, Some(graph.clone())));
    assert_eq!(read(backwards_twice(&graph).as_bytes()), (0, Some(graph)));
}

#[test]
fn the_plant_with_a_line_more() {
    let text = text_of(&plant());
    let resource = Term::Id(RESOURCE).text();
    let with = |line: &str| read(format!("{text}{line} .\n").as_bytes()).0;
    assert_eq!(with("<urn:id:6> <urn:id:5> <urn:id:7>"), 15);
    assert_eq!(with(&format!("<urn:id:7> {} {resource}", Term::Type.text())), 3);
    assert_eq!(with("<urn:id:4> <urn:id:5> \"7\""), 3);
    assert_eq!(with("<urn:id:6> <urn:id:5> \"7\""), 0);
}

#[test]
fn words_too_few_are_refusal_11_and_none_or_too_many_1() {
    let graph = plant();
    let text = text_of(&graph);
    for (words, answer) in [(0, 1), (1, 11), (15, 11), (16, 0), (17, 0), (2_048, 0), (2_049, 1)] {
        let mut table = vec![9; words];
        assert_eq!(read_triples(text.as_bytes(), &mut table), answer);
        let expected = if answer == 0 { table_of(&graph, words) } else { vec![9; words] };
        assert_eq!(table, expected);
    }
    // 1 comes first, then 15, 11 and 3.
    assert_eq!(read_triples(b"\n", &mut []), 1);
    assert_eq!(read_triples(format!("{text}\n").as_bytes(), &mut [0; 15]), 15);
    let broken = text_of(&graph.without(class(0)));
    assert_eq!(read_triples(broken.as_bytes(), &mut [0; 14]), 11);
    assert_eq!(read_triples(broken.as_bytes(), &mut [0; 15]), 3);
}

#[test]
fn a_fresh_table_has_one_line_and_the_empty_text_none() {
    let text = text_of(&fresh_graph());
    assert_eq!(text.len(), 145);
    assert_eq!(read(text.as_bytes()), (0, Some(fresh_graph())));
    assert_eq!(read(b""), (3, None));
}

/// Line lengths with ids of three digits, the longest line inside the profile, and the longest text.
#[test]
fn lines_and_texts_have_their_lengths() {
    let length = |fact: Fact| terms_of(fact, false).map_or(0, |terms| line_of(terms).len());
    let facts = [
        (class(100), 110),
        (property(100), 119),
        (subclass(100, 0), 113),
        (member(100, 0), 113),
        (subclass(100, 101), 78),
        (member(100, 101), 78),
        (subproperty(100, 101), 81),
        (domain(100, 0), 109),
        (range(100, 0), 108),
        (value(100, 101, 102), 41),
        (exclusive(100), 81),
        (exclusive(0), 116),
        (class(0), 145),
        (property(0), 154),
        (individual(100), 0),
        (literal(100), 0),
    ];
    for (fact, expected) in facts {
        assert_eq!(length(fact), expected, "{fact:?}");
    }
    let longest = facts_over(&[0, 2, 99, 100, 255]).into_iter().map(length).max();
    assert_eq!(longest, Some(154));
    let graph = longest_text();
    assert_eq!((graph.len(), text_of(&graph).len()), (MOST_WORDS, LONGEST_CONSISTENT_TEXT));
    assert_eq!(read(text_of(&graph).as_bytes()), (0, Some(graph)));
}

/// Every fact over these ids.
fn facts_over(ids: &[u8]) -> Vec<Fact> {
    let pairs = ids.iter().flat_map(|a| ids.iter().map(move |b| (*a, *b)));
    let triples = pairs.flat_map(|(a, b)| ids.iter().map(move |c| [a, b, *c]));
    let facts = triples.flat_map(|[a, b, c]| (1..=11).map(move |kind| fact(kind, a, b, c)));
    facts.filter(Fact::is_fact).collect()
}

/// No two facts share a line, and the line of a fact gives the fact, with Ind or Lit where there is one.
#[test]
fn each_line_is_of_one_fact() {
    let mut lines = BTreeSet::new();
    let mut count = 0;
    for found in facts_over(&[0, 1, 2, 3, 9, 10, 11, 25, 99, 100, 101, 199, 200, 254, 255]) {
        let may_be_literal = found.kind == VALUE && found.b != RESOURCE;
        for form in [false, true].into_iter().filter(|form| !form || may_be_literal) {
            let line = match terms_of(found, form) {
                Some(terms) => line_of(terms),
                None => continue,
            };
            let mut expected = Graph::of([found]);
            expected.put((found == member(found.a, RESOURCE)).then(|| individual(found.a)));
            expected.put(form.then(|| literal(found.b)));
            assert_eq!(facts_in_text(line.as_bytes()), Some(expected));
            count += 1;
            lines.insert(line);
        }
    }
    assert_eq!(lines.len(), count);
    assert!(count > 6_000);
}

#[test]
fn what_is_written_is_read_again_without_lone_literals() {
    let mut random = Random::for_test("triples_round_trip");
    let mut lone = 0;
    for round in 0..rounds(3_000) {
        let graph = random_graph(&mut random, round);
        let expected = without_lone_literals(&graph);
        lone += usize::from(expected != graph);
        let table = table_of(&graph, graph.len() + random.below(3));
        let mut output = vec![0xa5; 154 * graph.len()];
        let (answer, length) = write_triples(&table, &mut output);
        assert_eq!((answer, &output[..length]), (0, text_of(&graph).as_bytes()));
        assert!(output[length..].iter().all(|byte| *byte == 0xa5));
        let shuffled = shuffled_lines(&mut random, &graph).concat();
        for text in [&output[..length], shuffled.as_bytes(), backwards_twice(&graph).as_bytes()] {
            let mut again = vec![9; expected.len()];
            assert_eq!(read_triples(text, &mut again), 0);
            assert_eq!(again, table_of(&expected, expected.len()));
        }
    }
    assert!(lone > 200, "{lone}");
}

/// One byte short gives 13, a table that is not consistent 3, one not laid out 2.
#[test]
fn refused_writing_leaves_the_output() {
    let graph = plant();
    let mut output = vec![7; 2_000];
    let mut write = |table: &[u32], length: usize| {
        let answer = write_triples(table, &mut output[..length]);
        assert!(answer.0 == 0 || output.iter().all(|byte| *byte == 7));
        answer
    };
    assert_eq!(write(&[], 2_000), (1, 0));
    assert_eq!(write(&vec![0; 2_049], 2_000), (1, 0));
    assert_eq!(write(&[1], 0), (2, 0));
    assert_eq!(write(&[0], 0), (3, 0));
    assert_eq!(write(&table_of(&graph, 16), 1_272), (13, 0));
    assert_eq!(write(&table_of(&graph, 16), 1_273), (0, 1_273));
}

/// The parts of the numbers that cross the C interface.
#[test]
fn calls_across_c_have_their_numbers() {
    let (graph, text) = (plant(), text_of(&plant()));
    let image = image_of(&graph).expect("the plant has an image");
    let mut output = vec![7; 2_000];
    assert_eq!(host_write_triples(&image, &mut output), 1_273 << 16);
    assert_eq!((&output[..1_273], output[1_273]), (text.as_bytes(), 7));
    assert_eq!(host_write_triples(&image, &mut output[..1_272]), 13);
    assert_eq!(host_write_triples(&image[1..], &mut output), 12);
    assert_eq!(
        host_write_triples(&image_of(&filled(&mut Random::for_test("many"), 2_049)).unwrap(), &mut []),
        11
    );
    assert_eq!(host_write_triples(&image_of(&graph.without(class(0))).unwrap(), &mut []), 3);
    assert_eq!(host_read_triples(text.as_bytes(), &mut output), (image.len() as u64) << 48);
    assert_eq!((&output[..image.len()], output[image.len()]), (&image[..], text.as_bytes()[image.len()]));
    assert_eq!(host_read_triples(text.as_bytes(), &mut output[..image.len() - 1]), 13);
    assert_eq!(host_read_triples(b"\n", &mut output), 15);
    assert_eq!(host_read_triples(text_of(&generator::graphs::overfull()).as_bytes(), &mut output), 11);
    // Without Cl(0) the classes have no class above them: rule 7 is the fourth.
    assert_eq!(host_read_triples(text_of(&graph.without(class(0))).as_bytes(), &mut []), 3 | 4 << 16);
    assert_eq!(host_read_triples(b"", &mut []), 3 | 25 << 16);
}

#[test]
fn programs_print_texts_images_and_answers() {
    let (image, text) = (image_of(&plant()).unwrap(), text_of(&plant()));
    assert_eq!(print_text(&image), text);
    assert_eq!(print_text(&image[1..]), "");
    assert_eq!(print_image(text.as_bytes()), image);
    assert_eq!(print_image(&text.as_bytes()[1..]), b"");
    assert_eq!(print_answer(text.as_bytes()), "0\n");
    assert_eq!(print_answer(&text.as_bytes()[1..]), "15\n");
    assert_eq!(print_answer(b""), "3\n");
    let long = vec![b'\n'; LONGEST_TAKEN + 1];
    assert_eq!((print_image(&long), print_answer(&long).as_str()), (Vec::new(), ""));
    assert_eq!(print_answer(&long[1..]), "15\n");
}
