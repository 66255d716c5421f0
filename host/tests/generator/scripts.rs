//! Scripts for the program `run_calls`: tables good and bad, tickets and lists, plain and operators', tickets
//! asked about and committed, images whole and damaged.

use super::calls::Draw;
use super::damage::damaged;
use super::graphs::{disturbed, grown, marked, some_image_of};
use super::operators::{any_operator_ticket, operator_list};
use super::previews::{ask_line, commit_line};
use super::tickets::{any_ticket, bad_ticket, list, ticket, Ids};
use super::Random;
use crate::independent::graph::Graph;

/// Bytes in hexadecimal.
pub fn hexadecimal(bytes: &[u8]) -> String {
    bytes.iter().map(|byte| format!("{byte:02x}")).collect()
}

/// The line of a table of so many words, which are these and then zeros.
pub fn table_line(length: usize, words: &[u32]) -> String {
    let words: String = words.iter().chain(&[0]).map(|word| format!(" {word:08x}")).collect();
    format!("table {length:04x}{words}")
}

pub fn words_of(graph: &Graph) -> Vec<u32> {
    graph.facts().map(|fact| fact.word()).collect()
}

/// So many lines: a table, some commands, and again.
pub fn script(random: &mut Random, ids: &Ids, lines: usize) -> String {
    let mut script = String::new();
    for line in 0..lines {
        script += &if line % 12 == 0 { some_table(random, ids) } else { command(random, ids) };
        script.push('\n');
    }
    script
}

/// A table of good words or bad ones, mostly with a few words more than it needs.
fn some_table(random: &mut Random, ids: &Ids) -> String {
    let mut words = words_of(&some_graph(random, ids));
    if random.is_one_in(5) {
        spoil(random, &mut words);
    }
    let tight = words.len() + random.below(5);
    let short = random.below(words.len() + 1);
    let length = random.pick(&[tight, tight, tight, tight, 64, 2048, short, 0, 2049]);
    table_line(length, &words)
}

/// A consistent graph, now and then with a fact too many or too few, or with the mark out of place.
fn some_graph(random: &mut Random, ids: &Ids) -> Graph {
    match random.below(8) {
        0 => Graph::default(),
        1 => marked(random, ids),
        2 | 3 => disturbed(random, ids, 60),
        _ => grown(random, ids, 25, 60),
    }
}

/// A word twice, out of its order, changed, or 0.
fn spoil(random: &mut Random, words: &mut Vec<u32>) {
    if words.is_empty() {
        return words.push(random.byte().into());
    }
    let (place, other) = (random.below(words.len()), random.below(words.len()));
    match random.below(4) {
        0 => words.insert(place, words[place]),
        1 => words.swap(place, other),
        2 => words[place] ^= 1 << random.below(32),
        _ => words.insert(place, 0),
    }
}

fn command(random: &mut Random, ids: &Ids) -> String {
    match random.below(36) {
        0..=6 => format!("apply {}", hexadecimal(&some_ticket(random, ids, any_ticket))),
        7..=9 => format!("operator {}", hexadecimal(&some_ticket(random, ids, any_operator_ticket))),
        10..=12 => list_line(random, ids),
        13..=15 => format!("read {}", hexadecimal(&some_image(random, ids))),
        16 => format!("write {:04x}", random.pick(&[0, 62, 68, 69, 80, 100, 150, 250, 700])),
        17 | 18 => format!("body {:04x} {}", random.below(14), hexadecimal(&some_image(random, ids))),
        19 | 20 => format!("lookup {:08x}", some_word(random, ids)),
        21 => "check".to_string(),
        22..=25 => some_ask(random, ids),
        26..=29 => some_commit(random, ids),
        _ => other_line(random),
    }
}

/// A drawn ticket, or one time in fifteen the deletion of what may not go.
fn some_ticket(random: &mut Random, ids: &Ids, draw: Draw) -> Vec<u8> {
    if random.is_one_in(15) {
        random.pick(&[[2, 1, 0, 0, 0], [2, 5, 3, 0, 0], [2, 9, 4, 0, 0]]).to_vec()
    } else {
        draw(random, ids)
    }
}

/// A ticket asked about with runs of some words.
fn some_ask(random: &mut Random, ids: &Ids) -> String {
    let lengths = [0; 2].map(|_: usize| random.pick(&[0, 1, 3, 9, 9, 30]));
    ask_line(lengths, &some_ticket(random, ids, any_ticket))
}

/// A ticket committed with no words, as one that changes nothing is, or with what a ticket may add.
fn some_commit(random: &mut Random, ids: &Ids) -> String {
    let count = random.pick(&[0, 0, 0, 1, 2]);
    let words = (0..count).map(|_| some_word(random, ids)).collect();
    let runs = if random.is_one_in(2) { [words, Vec::new()] } else { [Vec::new(), words] };
    commit_line(&runs, &some_ticket(random, ids, any_ticket))
}

/// A word that a ticket asks for, or a change of it.
fn some_word(random: &mut Random, ids: &Ids) -> u32 {
    let [_, kind, a, b, c] = ticket(random, ids);
    let change = if random.is_one_in(3) { 1 << random.below(32) } else { 0 };
    u32::from_be_bytes([kind, a, b, c]) ^ change
}

/// A list by one of the four calls, with about as many answer bytes as it has tickets.
fn list_line(random: &mut Random, ids: &Ids) -> String {
    let name = random.pick(&["list", "each", "records", "operators", "operators"]);
    if name == "records" {
        let bytes: Vec<u8> = (0..5).flat_map(|_| bad_or_good(random, ids)).collect();
        return format!("{name} {:04x} {}", 3 + random.below(5), hexadecimal(&bytes));
    }
    let count = random.below(12);
    let draw = if name == "operators" { operator_list } else { list };
    let bytes = draw(random, ids, count);
    let room = ((bytes.len() + 4) / 5 + 3).saturating_sub(random.below(5));
    format!("{name} {room:04x} {}", hexadecimal(&bytes))
}

fn bad_or_good(random: &mut Random, ids: &Ids) -> [u8; 5] {
    if random.is_one_in(10) {
        bad_ticket(random, ids)
    } else {
        ticket(random, ids)
    }
}

/// An image, half of the time damaged.
fn some_image(random: &mut Random, ids: &Ids) -> Vec<u8> {
    let graph = some_graph(random, ids);
    let whole = some_image_of(random, &graph);
    if random.is_one_in(2) {
        damaged(random, &whole)
    } else {
        whole
    }
}

fn other_line(random: &mut Random) -> String {
    let names = [
        "words",
        "words",
        "same",
        "same",
        "keep",
        "back",
        "facts",
        "fresh",
        "read",
        "unknown",
        "# passed over",
    ];
    random.pick(&names).to_string()
}
