//! The two implementations that the benchmark measures, beside the independent one: the same answers, the
//! same bytes.

#[path = "generator/mod.rs"]
mod generator;
#[path = "independent/mod.rs"]
mod independent;
#[path = "../benches/graph/rivals/mod.rs"]
mod rivals;

use generator::graphs::image;
use generator::tickets::{list, ticket, Ids, ALL_IDS, FEW, MANY, PLENTY};
use generator::triples::{crowded_texts, longest_text, some_text};
use generator::{calls, graphs, rounds, Random};
use independent::fact::class;
use independent::graph::Graph;
use independent::{host, programs, table};
use rivals::bit_rows::BitRows;
use rivals::sorted::Sorted;
use rivals::triples::{read_triples, write_triples};
use rivals::{host_call, list_call, program, Rival, TICKET_LENGTH};
use vimelosa_host::{LONGEST_IMAGE, LONGEST_TEXT};

/// The number that all three give, and the output that all three leave.
fn same_call(image: &[u8], ticket: &[u8], output_length: usize) -> (u64, Vec<u8>) {
    let mut expected = vec![0x5a; output_length];
    let number = host::host_call(image, ticket, &mut expected);
    for call in [host_call::<Sorted>, host_call::<BitRows>] {
        let mut output = vec![0x5a; output_length];
        assert_eq!(call(image, ticket, &mut output), number, "{ticket:02x?} on {image:02x?}");
        assert_eq!(output, expected, "{ticket:02x?} on {image:02x?}");
    }
    (number, expected)
}

/// The number that all three give for a list, with so many answer bytes, and the output that all three leave.
fn same_list_call(image: &[u8], list: &[u8], answers_length: usize, output_length: usize) -> (u64, Vec<u8>) {
    let (mut expected_answers, mut expected) = (vec![0x5a; answers_length], vec![0x5a; output_length]);
    let number = host::host_list_call(image, list, &mut expected_answers, &mut expected);
    for call in [list_call::<Sorted>, list_call::<BitRows>] {
        let (mut answers, mut output) = (vec![0x5a; answers_length], vec![0x5a; output_length]);
        assert_eq!(call(image, list, &mut answers, &mut output), number, "{list:02x?} on {image:02x?}");
        assert_eq!(answers, expected_answers, "{list:02x?} on {image:02x?}");
        assert_eq!(output, expected, "{list:02x?} on {image:02x?}");
    }
    (number, expected)
}

/// The same with an answer byte more than there are tickets.
fn same_answered_list(image: &[u8], list: &[u8], output_length: usize) -> (u64, Vec<u8>) {
    same_list_call(image, list, list.chunks(TICKET_LENGTH).len() + 1, output_length)
}

/// The number that all three give for the text of an image, and the output that all three leave.
fn same_writing(image: &[u8], output_length: usize) -> (u64, Vec<u8>) {
    let mut expected = vec![0x5a; output_length];
    let number = host::host_write_triples(image, &mut expected);
    for call in [write_triples::<Sorted>, write_triples::<BitRows>] {
        let mut output = vec![0x5a; output_length];
        assert_eq!(call(image, &mut output), number, "{image:02x?}");
        assert!(output == expected, "{image:02x?}");
    }
    (number, expected)
}

/// The number that all three give for the image of a text, and the output that all three leave. Which rule is
/// broken only the independent one tells.
fn same_reading(text: &[u8], output_length: usize) -> (u64, Vec<u8>) {
    let mut expected = vec![0x5a; output_length];
    let number = match host::host_read_triples(text, &mut expected) {
        refused if refused as u16 == 3 => 3,
        number => number,
    };
    for call in [read_triples::<Sorted>, read_triples::<BitRows>] {
        let mut output = vec![0x5a; output_length];
        assert_eq!(call(text, &mut output), number, "{:?}", String::from_utf8_lossy(text));
        assert_eq!(output, expected, "{:?}", String::from_utf8_lossy(text));
    }
    (number, expected)
}

fn same_check(words: &[u32]) -> u8 {
    let expected = table::check(words);
    assert_eq!(Sorted::check(words), expected, "{words:08x?}");
    assert_eq!(BitRows::check(words), expected, "{words:08x?}");
    expected
}

/// All three print the same; how often each answer comes in it is added up.
fn same_program(list: &[u8], met: &mut [usize; 17]) {
    let expected = programs::print_answers(list);
    assert_eq!(printed::<Sorted>(list), expected, "{list:02x?}");
    assert_eq!(printed::<BitRows>(list), expected, "{list:02x?}");
    for (answer, _) in expected.lines().filter_map(|line| line.split_once(' ')) {
        met[answer.parse::<usize>().expect("an answer is a number")] += 1;
    }
}

fn printed<R: Rival>(list: &[u8]) -> String {
    let mut printed = Vec::new();
    program::run::<R>(list, &mut printed).expect("a Vec takes all bytes");
    String::from_utf8(printed).expect("program one prints text")
}

/// The graph's words in a table of `length`.
fn words(graph: &Graph, length: usize) -> Vec<u32> {
    let mut words: Vec<u32> = graph.facts().map(|fact| fact.word()).collect();
    words.resize(length.max(words.len()), 0);
    words
}

#[test]
fn host_calls_on_growing_graphs() {
    let mut random = Random::for_test("rivals_on_growing_graphs");
    calls::on_growing_graphs(&mut random, rounds(100), same_call);
}

#[test]
fn host_calls_on_damaged_images() {
    let mut random = Random::for_test("rivals_on_damaged_images");
    calls::on_damaged_images(&mut random, rounds(200), same_call);
    calls::on_changed_contents(&mut random, same_call);
}

#[test]
fn host_calls_on_full_graphs() {
    let mut random = Random::for_test("rivals_on_full_graphs");
    for facts in [2043, 2047, 2048, 2049] {
        let whole = image(&graphs::filled(&mut random, facts));
        for _ in 0..rounds(6) {
            same_call(&whole, &ticket(&mut random, &PLENTY), LONGEST_IMAGE);
        }
    }
}

/// Members of each other among ids of all sorts and of none: 16 exactly where b is no class, with room and
/// without.
#[test]
fn host_calls_on_members() {
    let mut random = Random::for_test("rivals_on_members");
    for (facts, answers) in [(300, [0, 10, 16]), (2048, [10, 11, 16])] {
        let graph = graphs::filled(&mut random, facts);
        let whole = image(&graph);
        let mut met = [0; 17];
        for _ in 0..rounds(80) {
            let [a, b] = [(); 2].map(|_| random.pick(&[0, 2, 3, 14, 15, 25, 45, 61, 75, 100, 210, 255]));
            let (number, _) = same_call(&whole, &[1, 9, a, b, 0], LONGEST_IMAGE);
            assert_eq!(number as u16 == 16, !graph.has(class(b)), "{a} in {b}");
            met[usize::from(number as u16)] += 1;
        }
        assert!(answers.iter().all(|answer| met[*answer] > 2), "{met:?}");
    }
}

/// Ten lists in turn on what those before leave of a fresh graph, now and then with an answer byte too few or
/// an output about as long as the image.
#[test]
fn list_calls_on_growing_graphs() {
    let mut random = Random::for_test("rivals_list_calls_on_growing_graphs");
    let mut met = [0; 15];
    for round in 0..rounds(60) {
        let mut held = image(&table::fresh_graph());
        for _ in 0..10 {
            let count = random.below(16);
            let list = list(&mut random, &ALL_IDS[round % 4], count);
            let tickets = list.chunks(TICKET_LENGTH).len();
            let answers = (tickets + random.pick(&[0, 0, 1, 7])).saturating_sub(random.pick(&[0, 0, 0, 1]));
            let output = if random.is_one_in(4) { random.below(2 * held.len()) } else { LONGEST_IMAGE };
            let (number, output) = same_list_call(&held, &list, answers, output);
            met[usize::from(number as u16)] += 1;
            if number as u16 == 0 {
                held = output[..(number >> 48) as usize].to_vec();
            }
        }
    }
    assert!([0, 13, 14].iter().all(|number| met[*number] > 10), "{met:?}");
}

#[test]
fn list_calls_on_damaged_images() {
    let mut random = Random::for_test("rivals_list_calls_on_damaged_images");
    calls::on_damaged_images(&mut random, rounds(100), same_answered_list);
    calls::on_changed_contents(&mut random, same_answered_list);
}

#[test]
fn list_calls_on_full_graphs() {
    let mut random = Random::for_test("rivals_list_calls_on_full_graphs");
    for facts in [2040, 2048] {
        let whole = image(&graphs::filled(&mut random, facts));
        for _ in 0..rounds(2) {
            let list = list(&mut random, &Ids { deletions: 4, ..PLENTY }, 20);
            same_answered_list(&whole, &list, LONGEST_IMAGE);
        }
    }
}

/// 65,535 tickets are counted; one more is refused with 14, whatever the answer bytes.
#[test]
fn list_calls_of_most_tickets() {
    let fresh = image(&table::fresh_graph());
    for (more, number) in [(0, 68 + 1), (1, 0)] {
        let list = vec![0; TICKET_LENGTH * (65_535 + more)];
        let (answer, _) = same_answered_list(&fresh, &list, LONGEST_IMAGE);
        assert_eq!((answer as u16, answer >> 48), ([0, 14][more], number));
    }
}

/// Texts written into outputs that suffice, exactly or more, and into one that is a byte too short.
#[test]
fn texts_written() {
    let mut random = Random::for_test("rivals_texts_written");
    for round in 0..rounds(200) {
        let whole = image(&graphs::grown(&mut random, &ALL_IDS[round % 4], round % 60, 300));
        let (number, _) = same_writing(&whole, LONGEST_TEXT);
        let length = (number >> 16) as usize;
        assert_eq!(same_writing(&whole, length).0, number);
        assert_eq!(same_writing(&whole, length - 1).0, 13);
    }
    let longest = image(&longest_text());
    assert_eq!(same_writing(&longest, LONGEST_TEXT).0, 189_256 << 16);
    calls::on_damaged_images(&mut random, rounds(50), |image, _, _| same_writing(image, LONGEST_TEXT));
    calls::on_changed_contents(&mut random, |image, _, _| same_writing(image, LONGEST_TEXT));
}

#[test]
fn texts_read() {
    let mut random = Random::for_test("rivals_texts_read");
    let mut met = [0; 16];
    for round in 0..rounds(2000) {
        let text = some_text(&mut random, &ALL_IDS[round % 4]);
        let (number, _) = same_reading(&text, random.pick(&[0, 68, 100, LONGEST_IMAGE, LONGEST_IMAGE]));
        met[usize::from(number as u16)] += 1;
    }
    for (text, answer) in crowded_texts(&mut random) {
        assert_eq!(same_reading(text.as_bytes(), LONGEST_IMAGE).0 as u8, answer);
    }
    assert!([0, 3, 13, 15].iter().all(|answer| met[*answer] > 50), "{met:?}");
    assert_eq!(same_reading(b"", LONGEST_IMAGE).0, 3);
}

/// Graphs that break a rule or two, or none: both outcomes are met often.
#[test]
fn checks_of_disturbed_tables() {
    let mut random = Random::for_test("rivals_check");
    let mut met = [0; 4];
    for round in 0..rounds(3000) {
        let ids = [FEW, MANY][round % 2];
        let mut table = words(&graphs::disturbed(&mut random, &ids, 60), 60);
        if random.is_one_in(10) {
            let (one, other) = (random.below(60), random.below(60));
            table.swap(one, other);
        }
        met[usize::from(same_check(&table))] += 1;
    }
    assert!(met[0] > 500 && met[2] > 50 && met[3] > 500, "{met:?}");
    assert_eq!([same_check(&[]), same_check(&[0; 2049]), same_check(&[0; 2048])], [1, 1, 3]);
}

/// Graphs of links and values with any one fact left out, and with any one domain or range exchanged.
#[test]
fn checks_of_tables_with_one_change() {
    let mut random = Random::for_test("rivals_check_one_change");
    for _ in 0..rounds(60) {
        let tickets: Vec<[u8; 5]> = (0..30).map(|_| link_ticket(&mut random)).collect();
        let (_, words) = programs::run_tickets(&tickets.concat());
        for place in 0..words.len() {
            let [kind, a, ..] = words[place].to_be_bytes();
            let mut changed = words.clone();
            changed.remove(place);
            same_check(&changed);
            let ends: &[u8] = if kind == 7 || kind == 8 { &[0, 1, 2, 3, 4, 5] } else { &[] };
            for end in ends {
                changed = words.clone();
                changed[place] = u32::from_be_bytes([kind, a, *end, 0]);
                same_check(&changed);
            }
        }
    }
}

#[test]
fn program_one_on_random_lists() {
    let mut random = Random::for_test("rivals_on_random_lists");
    let mut met = [0; 17];
    for round in 0..rounds(120) {
        same_program(&list(&mut random, &ALL_IDS[round % 4], 80), &mut met);
    }
    assert!([0, 9, 10, 16].iter().all(|answer| met[*answer] > 100), "{met:?}");
}

/// A ticket about links between four classes and five properties, or a value.
fn link_ticket(random: &mut Random) -> [u8; 5] {
    let class = 2 + random.below(4) as u8;
    let other = random.pick(&[0, 2, 3, 4, 5]);
    let (p, q) = (20 + random.below(5) as u8, 20 + random.below(5) as u8);
    match random.below(10) {
        0 | 1 => [1, 2, p, class, other],
        2 => [1, 2, p, other, random.pick(&[1, 2, 3, 4, 5])],
        3 | 4 => [1, 5, class, other, 0],
        5 | 6 => [1, 6, p, q, 0],
        7 => [2, 5, class, other, 0],
        8 => [2, 6, p, q, 0],
        _ => [1, 10, 30 + random.below(2) as u8, 31, p],
    }
}

/// A property under another needs class links for the domains and the ranges: they may close a circle
/// together though neither does alone, and with one of them the link between the properties goes.
#[test]
fn program_one_on_links() {
    let mut random = Random::for_test("rivals_on_links");
    let mut met = [0; 17];
    for _ in 0..rounds(400) {
        let tickets: Vec<[u8; 5]> = (0..40).map(|_| link_ticket(&mut random)).collect();
        same_program(&tickets.concat(), &mut met);
    }
    for [low, high, from, to] in [[2, 3, 3, 2], [2, 3, 4, 5], [2, 3, 4, 2], [2, 3, 3, 5]] {
        let links = [[1, 5, 3, 4, 0], [1, 5, 5, 2, 0]];
        let properties = [[1, 2, 20, low, from], [1, 2, 21, high, to]];
        let list = [links, properties].concat().concat();
        same_program(&[list, vec![1, 6, 20, 21, 0]].concat(), &mut met);
    }
    assert!([0, 9, 10].iter().all(|answer| met[*answer] > 1000), "{met:?}");
}

/// A ticket about which of four properties are exclusive or under each other, or a value of five individuals.
fn exclusive_ticket(random: &mut Random) -> [u8; 5] {
    let (p, q) = (20 + random.below(4) as u8, 20 + random.below(4) as u8);
    let (x, y) = (30 + random.below(5) as u8, 30 + random.below(5) as u8);
    match random.below(24) {
        0..=3 => [1, 2, p, 0, 0],
        4 => [2, 2, p, 0, 0],
        5..=7 => [1, 6, p, q, 0],
        8 => [2, 6, p, q, 0],
        9..=12 => [1, 11, p, 0, 0],
        13 => [2, 11, p, 0, 0],
        14 => [2, 3, x, 0, 0],
        15 => [2, 10, x, y, p],
        _ => [1, 10, x, y, p],
    }
}

/// Values that meet in exclusive properties: by a value, by a link, and where the property is made exclusive;
/// and tables with a fact of kind 11 more.
#[test]
fn program_one_on_exclusive_properties() {
    let mut random = Random::for_test("rivals_on_exclusive_properties");
    let (mut met, mut checked) = ([0; 17], [0; 4]);
    for _ in 0..rounds(100) {
        let tickets: Vec<[u8; 5]> = (0..60).map(|_| exclusive_ticket(&mut random)).collect();
        same_program(&tickets.concat(), &mut met);
        let (_, mut words) = programs::run_tickets(&tickets.concat());
        words.push(u32::from_be_bytes([11, 20 + random.below(6) as u8, 0, 0]));
        words.sort_unstable();
        words.dedup();
        checked[usize::from(same_check(&words))] += 1;
    }
    assert!([0, 9, 10].iter().all(|answer| met[*answer] > 300), "{met:?}");
    assert!(checked[0] > 10 && checked[3] > 10, "{checked:?}");
}

/// Members of a tree's lowest class, which stands first, while the tree grows deep and until no more fits;
/// then tickets of all sorts.
#[test]
fn program_one_on_full_tables() {
    let mut random = Random::for_test("rivals_on_full_tables");
    let mut met = [0; 17];
    for _ in 0..rounds(2) {
        let mut tickets: Vec<[u8; 5]> = (2..16).map(|c| [1, 5, c, c + 1, 0]).collect();
        tickets.extend([[1, 2, 50, 16, 16], [1, 2, 51, 2, 1]]);
        tickets.extend((80..=140).map(|x| [1, 9, x, 2, 0]));
        random.shuffle(&mut tickets);
        tickets.insert(0, [1, 1, 2, 0, 0]);
        tickets.extend((141..=230).map(|x| [1, 9, x, 2, 0]));
        let more = list(&mut random, &Ids { deletions: 12, ..PLENTY }, 60);
        same_program(&[tickets.concat(), more].concat(), &mut met);
    }
    assert!(met[11] > 50, "{met:?}");
}
