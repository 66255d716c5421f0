//! Operators' tickets on the independent implementation, beside its plain calls: the order of the refusals,
//! tickets and lists of every sort, the calls across the C interface, the commands of a script.

mod generator;
mod independent;

use generator::damage::damaged;
use generator::graphs::{broken, classes_of, filled, grown, image, overfull};
use generator::scripts::{table_line, words_of};
use generator::tickets::{any_ticket, ticket_with, Ids, ALL_IDS};
use generator::{rounds, Random};
use independent::fact::{class, Fact};
use independent::graph::Graph;
use independent::host::{host_call, host_operator_call, host_operator_list_call, packed};
use independent::image::{facts_in, read};
use independent::list::{ListAnswer, TICKET_LENGTH};
use independent::operator::{apply_operator, apply_operator_list};
use independent::programs::run_tickets;
use independent::script::run_script;
use independent::table::{check, fresh_table, store, MOST_WORDS};
use independent::ticket::{apply, Answer};

/// The kinds that operators' tickets take, and all others that facts have.
const THEIRS: [u8; 4] = [3, 4, 9, 10];
const OTHERS: [u8; 7] = [1, 2, 5, 6, 7, 8, 11];

/// The kinds of tickets that only the plain calls take: 7 and 8 are no tickets.
const PLAIN_ONLY: [u8; 5] = [1, 2, 5, 6, 11];

/// P1 to P7 of document 01 without P5, which is refused.
const TICKETS: [[u8; 5]; 6] =
    [[1, 1, 2, 0, 0], [1, 5, 3, 2, 0], [1, 9, 4, 3, 0], [2, 9, 4, 2, 0], [1, 2, 5, 2, 1], [1, 10, 6, 7, 5]];

/// The words that they leave: classes 2 and 3, property 5 to literals, individuals 4 and 6, literal 7.
fn plant() -> Vec<u32> {
    run_tickets(&TICKETS.concat()).1
}

/// The words with so many zeros after them.
fn with_room(words: &[u32], free: usize) -> Vec<u32> {
    [words, &vec![0; free]].concat()
}

/// The words that stand for facts of the other kinds.
fn other_facts(table: &[u32]) -> Vec<u32> {
    let is_other = |word: &u32| OTHERS.contains(&word.to_be_bytes()[0]);
    table.iter().copied().filter(is_other).collect()
}

/// What the text says of an operator's ticket, by the plain call on a table of its own: the answer and the
/// words. A ticket of another length has no kind; the plain call refuses it with 4 at the latest.
fn expected(table: &[u32], ticket: &[u8]) -> (Answer, Vec<u32>) {
    let mut after = table.to_vec();
    let plain = apply(&mut after, ticket);
    let is_theirs = ticket.get(1).map_or(false, |kind| THEIRS.contains(kind));
    match plain.number {
        1..=7 => (plain, table.to_vec()),
        _ if is_theirs => (plain, after),
        _ => (Answer::refused(17), table.to_vec()),
    }
}

/// The answer of the operators' call and the words that it leaves.
fn answered(table: &[u32], ticket: &[u8]) -> (Answer, Vec<u32>) {
    let mut after = table.to_vec();
    let answer = apply_operator(&mut after, ticket);
    (answer, after)
}

/// Tickets on the plant with four words more, the plain call's number and the operators'.
const CASES: [(&[u8], u8, u8); 31] = [
    (&[], 4, 4),
    (&[1, 1, 9, 0], 4, 4),
    (&[1, 1, 9, 0, 0, 0], 4, 4),
    (&[0, 1, 9, 0, 0], 5, 5),
    (&[3, 0, 9, 0, 0], 5, 5),
    (&[1, 0, 9, 0, 0], 6, 6),
    (&[1, 7, 5, 2, 0], 6, 6),
    (&[2, 8, 5, 1, 0], 6, 6),
    (&[1, 12, 9, 0, 0], 6, 6),
    (&[1, 1, 9, 1, 0], 7, 7),
    (&[2, 1, 0, 0, 1], 7, 7),
    (&[1, 1, 1, 0, 0], 7, 7),
    (&[1, 2, 9, 1, 0], 7, 7),
    (&[2, 2, 5, 2, 1], 7, 7),
    (&[1, 11, 5, 5, 0], 7, 7),
    (&[2, 1, 0, 0, 0], 8, 17),
    (&[2, 5, 2, 0, 0], 8, 17),
    (&[1, 6, 5, 6, 0], 9, 17),
    (&[1, 11, 6, 0, 0], 9, 17),
    (&[1, 5, 2, 3, 0], 10, 17),
    (&[1, 2, 9, 10, 11], 11, 17),
    (&[1, 1, 2, 0, 0], 0, 17),
    (&[2, 1, 9, 0, 0], 0, 17),
    (&[1, 2, 5, 2, 1], 0, 17),
    (&[2, 9, 4, 0, 0], 8, 8),
    (&[1, 10, 4, 7, 9], 9, 9),
    (&[1, 9, 4, 9, 0], 16, 16),
    (&[1, 9, 3, 3, 0], 10, 10),
    (&[1, 10, 8, 9, 5], 11, 11),
    (&[1, 9, 8, 3, 0], 0, 0),
    (&[2, 3, 6, 0, 0], 0, 0),
];

#[test]
fn kind_not_for_operators_follows_7_and_comes_before_8() {
    let table = with_room(&plant(), 4);
    for (ticket, plain, number) in CASES {
        assert_eq!(apply(&mut table.clone(), ticket).number, plain, "{ticket:?}");
        assert_eq!(answered(&table, ticket).0.number, number, "{ticket:?}");
        assert_eq!(answered(&table, ticket), expected(&table, ticket), "{ticket:?}");
    }
}

/// Every kind with one id, and every first id with the kinds up to 12.
#[test]
fn each_kind_and_each_first_id() {
    let table = with_room(&plant(), 4);
    let same =
        |ticket: [u8; 5]| assert_eq!(answered(&table, &ticket), expected(&table, &ticket), "{ticket:?}");
    for operation in [1, 2] {
        (0..=255).for_each(|kind| same([operation, kind, 9, 0, 0]));
        (0..=12).for_each(|kind| (0..=255).for_each(|a| same([operation, kind, a, 0, 0])));
    }
}

/// 1, 2 and 3 come before all that the ticket says.
#[test]
fn a_bad_table_is_refused_before_the_ticket() {
    let words = plant();
    let tables = [
        (Vec::new(), 1),
        (fresh_table(1), 17),
        (with_room(&words, MOST_WORDS + 1 - words.len()), 1),
        (with_room(&words, MOST_WORDS - words.len()), 17),
        (with_room(&[0], words.len()), 3),
        ([&[0], &words[..]].concat(), 2),
        (words[1..].to_vec(), 3),
    ];
    for (table, number) in tables {
        for class_ticket in [[1, 1, 9, 0, 0], [2, 1, 0, 0, 0]] {
            assert_eq!(answered(&table, &class_ticket), (Answer::refused(number), table.clone()));
        }
        let first = if number == 17 { 4 } else { number };
        assert_eq!(answered(&table, &[1, 1]).0.number, first);
    }
}

/// A table of a random graph. Most are consistent, with no word more than facts or a few; one in eight has no
/// words or too many, is not laid out, or breaks a rule.
fn some_table(random: &mut Random, ids: &Ids) -> Vec<u32> {
    let tickets = random.below(45);
    let words = words_of(&grown(random, ids, tickets, MOST_WORDS));
    let free = random.pick(&[0, 1, 2, 4, 8, 30]);
    match random.below(40) {
        0 => Vec::new(),
        1 => with_room(&words, MOST_WORDS + 1 - words.len()),
        2 => [&[0], &words[..]].concat(),
        3 => [&words[..], &words[..]].concat(),
        4 => with_room(&words_of(&broken(random, ids)), free),
        5 => with_room(&words, MOST_WORDS - words.len()),
        _ => with_room(&words, free),
    }
}

/// A ticket of any sort: any that the plain calls are given, one in a class of the table, a fact of the table
/// to come or to go, or bytes drawn each by itself.
fn some_ticket(random: &mut Random, ids: &Ids, table: &[u32]) -> Vec<u8> {
    let facts: Vec<Fact> = table.iter().filter_map(|word| Fact::of_word(*word)).collect();
    let known = classes_of(&Graph::of(facts.iter().copied().chain([class(0)])));
    match random.below(5) {
        0 if !facts.is_empty() => {
            let fact = random.pick(&facts);
            vec![1 + random.below(2) as u8, fact.kind, fact.a, fact.b, fact.c]
        }
        1 => [4, 14, 13, 4, 3].map(|end| random.below(end) as u8).to_vec(),
        2 | 3 => ticket_with(random, ids, &known).to_vec(),
        _ => any_ticket(random, ids),
    }
}

/// How often something was met, by a number or by operation and kind.
#[derive(Default)]
struct Met {
    /// The operators' answers.
    numbers: [usize; 18],
    /// The plain call's answers where the operators' is 17.
    turned: [usize; 18],
    /// Accepted tickets that move words.
    moved: [[usize; 12]; 3],
    /// Tickets refused with 17.
    kept_out: [[usize; 12]; 3],
}

impl Met {
    fn count(&mut self, table: &[u32], ticket: &[u8], answer: Answer) {
        self.numbers[usize::from(answer.number)] += 1;
        let place = |at: usize| usize::from(ticket[at]);
        if answer.number == 17 {
            self.kept_out[place(0)][place(1)] += 1;
            self.turned[usize::from(apply(&mut table.to_vec(), ticket).number)] += 1;
        }
        if answer.added + answer.removed > 0 {
            self.moved[place(0)][place(1)] += 1;
        }
    }
}

/// These places were met, and no others.
fn assert_met(met: &[usize], places: &[u8]) {
    for (place, count) in met.iter().enumerate() {
        assert_eq!(*count > 0, places.contains(&(place as u8)), "{place} in {met:?}");
    }
}

#[test]
fn tickets_of_their_kinds_do_as_in_the_plain_call_and_others_nothing() {
    let mut random = Random::for_test("operators_tickets");
    let mut met = Met::default();
    for round in 0..rounds(4_000) {
        let ids = &ALL_IDS[round % 4];
        let table = some_table(&mut random, ids);
        for _ in 0..5 {
            let ticket = some_ticket(&mut random, ids, &table);
            let (answer, after) = answered(&table, &ticket);
            assert_eq!((answer, after.clone()), expected(&table, &ticket), "{ticket:?} on {table:x?}");
            assert_eq!(other_facts(&after), other_facts(&table));
            met.count(&table, &ticket, answer);
        }
    }
    assert_met(&met.numbers, &[0, 1, 2, 3, 4, 5, 6, 7, 8, 9, 10, 11, 16, 17]);
    assert_met(&met.turned, &[0, 8, 9, 10, 11]);
    for operation in [1, 2] {
        assert_met(&met.moved[operation], &THEIRS);
        assert_met(&met.kept_out[operation], &PLAIN_ONLY);
    }
}

/// A ticket in a list: of any sort, half of the time of one of their kinds.
fn some_record(random: &mut Random, ids: &Ids, table: &[u32]) -> Vec<u8> {
    let is_theirs = random.is_one_in(2);
    let mut tickets = std::iter::repeat_with(|| some_ticket(random, ids, table));
    let fits =
        |ticket: &Vec<u8>| ticket.len() == TICKET_LENGTH && (!is_theirs || THEIRS.contains(&ticket[1]));
    tickets.find(fits).expect("tickets are drawn without end")
}

/// A list of up to ten tickets, with up to four bytes left over.
fn some_list(random: &mut Random, ids: &Ids, table: &[u32]) -> Vec<u8> {
    let count = random.below(11);
    let mut list: Vec<u8> = (0..count).flat_map(|_| some_record(random, ids, table)).collect();
    let leftover = random.below(TICKET_LENGTH);
    list.extend((0..leftover).map(|_| 1 + random.below(10) as u8));
    list
}

/// The single calls one after another: their numbers, and the words after the last. After each the other
/// facts are those of the table.
fn run_singly(table: &[u32], list: &[u8]) -> (Vec<u8>, Vec<u32>) {
    let (mut numbers, mut words) = (Vec::new(), table.to_vec());
    for ticket in list.chunks(TICKET_LENGTH) {
        numbers.push(apply_operator(&mut words, ticket).number);
        assert_eq!(other_facts(&words), other_facts(table));
    }
    (numbers, words)
}

/// Compares the list call, lent so many answer bytes, with the single calls, and answers its number. Refused,
/// it leaves words and bytes.
fn same_list(table: &[u32], list: &[u8], room: usize) -> u8 {
    let (numbers, singly) = run_singly(table, list);
    let (mut words, mut answers) = (table.to_vec(), vec![0xa5; room]);
    let answer = apply_operator_list(&mut words, list, &mut answers);
    assert_eq!(other_facts(&words), other_facts(table));
    let few_answers = if room < numbers.len() { 14 } else { 0 };
    let refusal = if check(table) != 0 { check(table) } else { few_answers };
    if refusal != 0 {
        assert_eq!(answer, ListAnswer { number: refusal, accepted: 0, refused: 0 });
        assert_eq!((words, answers), (table.to_vec(), vec![0xa5; room]));
        return refusal;
    }
    let accepted = numbers.iter().filter(|number| **number == 0).count();
    assert_eq!(answer, ListAnswer { number: 0, accepted, refused: numbers.len() - accepted });
    assert_eq!(words, singly);
    let untouched = vec![0xa5; room - numbers.len()];
    assert_eq!(answers, [numbers, untouched].concat());
    0
}

#[test]
fn a_list_is_the_single_calls_and_leaves_the_other_facts() {
    let mut random = Random::for_test("operators_lists");
    let (mut numbers, mut of_tickets) = ([0; 18], [0; 18]);
    let mut changed = 0;
    for round in 0..rounds(2_500) {
        let ids = &ALL_IDS[round % 4];
        let table = some_table(&mut random, ids);
        let list = some_list(&mut random, ids, &table);
        let count = list.chunks(TICKET_LENGTH).len();
        let room = (count + 2).saturating_sub(random.pick(&[0, 1, 2, 2, 3]));
        numbers[usize::from(same_list(&table, &list, room))] += 1;
        // The list cut off after each ticket, one ticket in three.
        for cut in (0..count).filter(|_| random.is_one_in(3)) {
            same_list(&table, &list[..cut * TICKET_LENGTH], cut);
        }
        let (singly, words) = run_singly(&table, &list);
        singly.iter().for_each(|number| of_tickets[usize::from(*number)] += 1);
        changed += usize::from(words != table);
    }
    assert_met(&numbers, &[0, 1, 2, 3, 14]);
    assert_met(&of_tickets, &[0, 1, 2, 3, 4, 5, 6, 7, 8, 9, 10, 11, 16, 17]);
    assert!(changed > rounds(700), "{changed}");
}

/// Bytes short of a record are refused with 4, whatever kind they have; the lender's faults come first.
#[test]
fn a_list_with_bytes_left_over() {
    let table = with_room(&plant(), 9);
    let list = [1, 1, 9, 0, 0, 1, 3, 9, 0, 0, 2, 1, 0, 0, 0, 1, 3, 10, 0];
    let (numbers, words) = run_singly(&table, &list);
    assert_eq!(numbers, [17, 0, 17, 4]);
    assert_eq!(words.iter().filter(|word| **word == 0).count(), 7);
    assert_eq!([3, 4, 5].map(|room| same_list(&table, &list, room)), [14, 0, 0]);
    assert_eq!(same_list(&table[1..], &list, 3), 3);
    assert_eq!(same_list(&[1], &list, 3), 2);
    assert_eq!(same_list(&[], &list, 3), 1);
}

/// The number and the output that a call leaves of so many bytes.
type HostCall = fn(&[u8], &[u8], &mut [u8]) -> u64;

fn called(call: HostCall, image: &[u8], ticket: &[u8], length: usize) -> (u64, Vec<u8>) {
    let mut output = vec![0xa5; length];
    (call(image, ticket, &mut output), output)
}

/// Where the image is refused, or the plain ticket call answers 1 to 7, or the kind is theirs, it is the
/// plain host call; all else is 17, before the output's length is asked for.
#[test]
fn a_call_across_c_does_as_the_plain_one_on_their_kinds() {
    let mut random = Random::for_test("operators_host");
    let mut met = [0; 18];
    for round in 0..rounds(2_000) {
        let ids = &ALL_IDS[round % 4];
        let graph = match random.below(8) {
            0 => overfull(),
            1 => broken(&mut random, ids),
            _ => grown(&mut random, ids, 30, MOST_WORDS),
        };
        let whole = image(&graph);
        let lent = if random.is_one_in(8) { damaged(&mut random, &whole) } else { whole };
        let ticket = some_ticket(&mut random, ids, &words_of(&graph));
        let length = random.pick(&[0, lent.len(), lent.len() + 9, 7_000, 7_000]);
        let (number, output) = called(host_operator_call, &lent, &ticket, length);
        let mut table = vec![0; MOST_WORDS];
        let is_kept_out = read(&lent, &mut table) == 0 && expected(&table, &ticket).0.number == 17;
        let plain = called(host_call, &lent, &ticket, length);
        let other = if is_kept_out { (17, vec![0xa5; length]) } else { plain };
        assert_eq!((number, output), other);
        met[number as usize % 65_536] += 1;
    }
    assert_met(&met, &[0, 3, 4, 5, 6, 7, 8, 9, 10, 11, 12, 13, 16, 17]);
}

/// 11 is the ticket's own refusal on a full table; for a class 17 comes before it.
#[test]
fn a_full_table_across_c() {
    let full = image(&filled(&mut Random::for_test("operators_full"), MOST_WORDS));
    let cases = [([1, 4, 78, 0, 0], 11, 11), ([1, 1, 78, 0, 0], 11, 17)];
    for (ticket, plain, number) in cases {
        assert_eq!(called(host_call, &full, &ticket, 7_000), (plain, vec![0xa5; 7_000]));
        assert_eq!(called(host_operator_call, &full, &ticket, 7_000), (number, vec![0xa5; 7_000]));
    }
    let (mut answers, mut output) = ([0xa5; 2], vec![0xa5; 7_000]);
    let list = cases.map(|(ticket, _, _)| ticket).concat();
    let number = host_operator_list_call(&full, &list, &mut answers, &mut output);
    assert_eq!((number, answers), (packed(0, 0, 2, full.len()), [11, 17]));
    assert!(output.starts_with(&full));
}

/// The single calls across the C interface, each on the image that the last accepted one left: the numbers
/// and the last image.
fn call_singly(image: &[u8], list: &[u8]) -> (Vec<u8>, Vec<u8>) {
    let (mut numbers, mut held) = (Vec::new(), image.to_vec());
    for ticket in list.chunks(TICKET_LENGTH) {
        let (number, output) = called(host_operator_call, &held, ticket, 7_000);
        numbers.push(number as u8);
        if number as u16 == 0 {
            held = output[..(number >> 48) as usize].to_vec();
        }
    }
    (numbers, held)
}

#[test]
fn a_list_call_across_c_is_the_single_calls() {
    let mut random = Random::for_test("operators_host_lists");
    let mut met = [0; 18];
    for round in 0..rounds(800) {
        let ids = &ALL_IDS[round % 4];
        let graph = grown(&mut random, ids, 30, MOST_WORDS);
        let list = some_list(&mut random, ids, &words_of(&graph));
        let (numbers, last) = call_singly(&image(&graph), &list);
        let (mut answers, mut output) = (vec![0xa5; numbers.len() + 2], vec![0xa5; last.len() + 3]);
        let number = host_operator_list_call(&image(&graph), &list, &mut answers, &mut output);
        let accepted = numbers.iter().filter(|number| **number == 0).count();
        assert_eq!(number, packed(0, accepted, numbers.len() - accepted, last.len()));
        assert_eq!(output, [&last[..], &[0xa5; 3]].concat());
        let other = |graph: &Graph| other_facts(&words_of(graph));
        assert_eq!(other(&facts_in(&last).expect("an image")), other(&graph));
        numbers.iter().for_each(|number| met[usize::from(*number)] += 1);
        assert_eq!(answers, [numbers, vec![0xa5; 2]].concat());
    }
    assert_met(&met, &[0, 4, 5, 6, 7, 8, 9, 10, 16, 17]);
}

/// Refusals 12, 11, 3, 14, 13 in this order, whatever the tickets are; bytes stay as lent.
#[test]
fn a_list_call_across_c_refuses_in_order() {
    let graph = Graph::of(plant().iter().filter_map(|word| Fact::of_word(*word)));
    let whole = image(&graph);
    let list = [1, 1, 9, 0, 0, 1, 1];
    let cases = [
        (whole[1..].to_vec(), 0, 0, 12),
        (image(&overfull()), 0, 0, 11),
        (image(&graph.without(class(0))), 0, 0, 3),
        (whole.clone(), 1, 0, 14),
        (whole.clone(), 2, whole.len() - 1, 13),
        (whole.clone(), 2, whole.len(), packed(0, 0, 2, whole.len())),
    ];
    for (lent, room, length, expected) in cases {
        let (mut answers, mut output) = (vec![0xa5; room], vec![0xa5; length]);
        assert_eq!(host_operator_list_call(&lent, &list, &mut answers, &mut output), expected);
        let is_refused = expected as u16 != 0;
        assert_eq!(answers, if is_refused { vec![0xa5; room] } else { vec![17, 4] });
        assert_eq!(output, if is_refused { vec![0xa5; length] } else { whole.clone() });
    }
}

#[test]
fn commands_print_the_operators_answers() {
    let mut table = vec![0; 16];
    store(&Graph::of([class(0)]), &mut table);
    let lines = [
        (table_line(16, &table), "table"),
        ("operator 01 01 02 00 00".to_string(), "operator 17 0 0"),
        ("operator 0201000000".to_string(), "operator 17 0 0"),
        ("operator 0103040000".to_string(), "operator 0 2 0"),
        ("operator 0109040200".to_string(), "operator 16 0 0"),
        ("operator".to_string(), "operator 4 0 0"),
        ("operators 0004 0104050000 0101020000 01".to_string(), "operators 0 1 2 00 11 04 ff"),
        ("operators 0001 0104060000 01".to_string(), "operators 14 0 0 ff"),
        ("list 0002 0101020000 0101020000".to_string(), "list 0 2 0 00 00"),
        ("words".to_string(), "words 01000000 01020000 03040000 04050000 05020000 09040000"),
        ("table 0000".to_string(), "table"),
        ("operator 0101020000".to_string(), "operator 1 0 0"),
        ("operators 0001 0101020000".to_string(), "operators 1 0 0 ff"),
    ];
    let script: String = lines.iter().map(|(line, _)| format!("{line}\n")).collect();
    let printed: String = lines.iter().map(|(_, printed)| format!("{printed}\n")).collect();
    assert_eq!(run_script(&script), printed);
}
