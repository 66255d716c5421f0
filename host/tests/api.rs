//! The safe calls, plain and operators': the vectors and random tickets through `Graph`, ticket by ticket and
//! as lists; its facts beside those of the independent implementation.

mod generator;
mod independent;
mod vector_files;

use generator::long_lists::long_list;
use generator::tickets::{records, ticket, ALL_IDS, MANY};
use generator::{rounds, Random};
use independent::fact::value;
use independent::image::{facts_in, image_of};
use independent::table::fresh_graph;
use std::thread;
use vector_files::{class_cases, database, operator_cases, paper_cases, suite_cases, OperatorCase};
use vimelosa_host::{apply_list, check_image, write_triples, LONGEST_IMAGE, MOST_FACTS};
use vimelosa_host::{Change, Fact, Graph, Kind, Range, Refusal, RefusedTicket, Ticket};

fn ticket_of(bytes: &[u8]) -> Ticket {
    Ticket::of_bytes(bytes.try_into().expect("five bytes"))
}

fn tickets_of(list: &[u8]) -> Vec<Ticket> {
    list.chunks(5).map(ticket_of).collect()
}

/// What is answered for each ticket of a list.
type Answers = Vec<Result<(), Refusal>>;

/// The calls for one ticket, for all of a list, and for all or none.
struct Calls {
    one: fn(&mut Graph, Ticket) -> Result<Change, Refusal>,
    all: fn(&mut Graph, &[Ticket]) -> Answers,
    all_or_none: fn(&mut Graph, &[Ticket]) -> Result<Change, RefusedTicket>,
}

const PLAIN: Calls =
    Calls { one: Graph::apply, all: Graph::apply_all, all_or_none: Graph::apply_all_or_none };

const OPERATOR: Calls = Calls {
    one: Graph::apply_as_operator,
    all: Graph::apply_all_as_operator,
    all_or_none: Graph::apply_all_or_none_as_operator,
};

fn run(graph: &mut Graph, list: &[u8]) -> Vec<[usize; 3]> {
    run_by(&PLAIN, graph, list)
}

/// Runs a list on a graph ticket by ticket, and at once on its copy, which says the same; the answers as
/// number, added and removed.
fn run_by(calls: &Calls, graph: &mut Graph, list: &[u8]) -> Vec<[usize; 3]> {
    let (mut copy, tickets) = (graph.clone(), tickets_of(list));
    let outcomes: Vec<_> = tickets.iter().map(|ticket| (calls.one)(graph, *ticket)).collect();
    let at_once: Vec<_> = outcomes.iter().map(|outcome| outcome.map(|_| ())).collect();
    assert_eq!((calls.all)(&mut copy, &tickets), at_once);
    assert_eq!(copy, *graph);
    let answer = |outcome: Result<Change, Refusal>| match outcome {
        Ok(Change { added, removed }) => [0, added.into(), removed.into()],
        Err(refusal) => [refusal.number().into(), 0, 0],
    };
    outcomes.into_iter().map(answer).collect()
}

fn words(graph: &Graph) -> Vec<u32> {
    graph.all_facts().map(|fact| fact.word()).collect()
}

#[test]
fn a_fresh_graph_is_the_image_of_a_fresh_table() {
    assert_eq!(Graph::fresh().image(), image_of(&fresh_graph()).unwrap());
    assert_eq!(Graph::default().count_facts(), 1);
}

#[test]
fn the_longest_image_has_2048_values() {
    let values = (2..=255).flat_map(|x| (2..=255).map(move |y| value(x, y, 2)));
    let graph = independent::graph::Graph::of(values.take(MOST_FACTS));
    assert_eq!(image_of(&graph).unwrap().len(), LONGEST_IMAGE);
    assert_eq!(LONGEST_IMAGE, 68 + 3 * 2048);
}

/// The image of a graph without exclusive properties as releases before 0.13.0 wrote it: without the entry of
/// kind 11, which is bytes 62 to 67, so that every body starts six bytes earlier.
fn with_ten_entries(image: &[u8]) -> Vec<u8> {
    let mut old = [&image[..62], &image[68..]].concat();
    old[1] = 10;
    for entry in old[2..62].chunks_exact_mut(6) {
        let start = u16::from_le_bytes([entry[2], entry[3]]) - 6;
        entry[2..4].copy_from_slice(&start.to_le_bytes());
    }
    old
}

/// An image of ten entries is loaded as the same graph, and told the same where it is lent.
#[test]
fn images_of_ten_entries_are_loaded() {
    let mut random = Random::for_test("images_of_ten_entries");
    for round in 0..rounds(40) {
        let mut graph = Graph::fresh();
        run(&mut graph, &records(&mut random, &ALL_IDS[round % 4], round));
        for property in graph.body(Kind::Exclusive).to_vec() {
            graph.apply(Ticket::delete_exclusive(property)).unwrap();
        }
        let old = with_ten_entries(graph.image());
        assert_eq!(Graph::load(&old).as_ref(), Ok(&graph));
        assert_eq!(check_image(&old), Ok(()));
        let needed = graph.to_triples().len();
        assert_eq!(write_triples(&old, &mut []), Err(Refusal::ShortOutput { needed }));

        // With an exclusive property the image is written with eleven entries.
        let mut output = [0; LONGEST_IMAGE];
        let tickets = [Ticket::insert_property(2, 0, Range::Literal), Ticket::insert_exclusive(2)];
        let list: Vec<u8> = tickets.iter().flat_map(|ticket| ticket.bytes()).collect();
        let applied = apply_list(&old, &list, &mut [0; 2], &mut output).unwrap();
        let _ = graph.apply_all(&tickets);
        assert_eq!(&output[..applied.length], graph.image());
    }
    let fresh = with_ten_entries(Graph::fresh().image());
    assert_eq!(Graph::load(&fresh[..fresh.len() - 1]), Err(Refusal::Malformed));
}

#[test]
fn suite_cases_through_the_graph() {
    for case in suite_cases() {
        let mut graph = Graph::fresh();
        let numbers: Vec<u8> = run(&mut graph, &case.list).iter().map(|a| a[0] as u8).collect();
        let words = words(&graph);
        assert_eq!(numbers, case.numbers, "{}", case.name);
        assert!(case.present.iter().all(|word| words.contains(word)), "{}", case.name);
        assert!(!case.absent.iter().any(|word| words.contains(word)), "{}", case.name);
    }
}

#[test]
fn paper_cases_through_the_graph() {
    let mut filled = Graph::fresh();
    run(&mut filled, &database());
    for case in paper_cases() {
        let mut graph = if case.from_database { filled.clone() } else { Graph::fresh() };
        let answers = run(&mut graph, &case.list);
        match case.answers {
            Some(expected) => assert_eq!(answers, expected, "{}", case.name),
            None => assert!(answers.iter().all(|answer| answer[0] == 0), "{}", case.name),
        }
        if let Some(count) = case.facts {
            assert_eq!(graph.count_facts(), count, "{}", case.name);
        }
    }
}

/// Those on 2,048 words, as many as a graph has: members and their classes, exclusive properties.
#[test]
fn ticket_cases_through_the_graph() {
    let cases = class_cases().into_iter().chain(vector_files::exclusive_cases());
    for case in cases.filter(|case| case.words == MOST_FACTS) {
        let mut graph = Graph::fresh();
        assert_eq!(run(&mut graph, &case.list), case.answers, "{}", case.name);
        assert_eq!(words(&graph), case.left, "{}", case.name);
    }
}

/// The same of operators' tickets; a ticket short of a record is none for a graph.
#[test]
fn operator_cases_through_the_graph() {
    let cases = operator_cases().into_iter().filter(|whole| whole.case.words == MOST_FACTS);
    for OperatorCase { before, case } in cases {
        let mut graph = Graph::fresh();
        graph.apply_all_or_none(&tickets_of(&before)).unwrap();
        let whole = case.list.len() / 5;
        let answers = run_by(&OPERATOR, &mut graph, &case.list[..5 * whole]);
        assert_eq!(answers, case.answers[..whole], "{}", case.name);
        assert_eq!(words(&graph), case.left, "{}", case.name);
    }
}

#[test]
fn facts_of_a_graph_are_those_of_its_image() {
    let mut random = Random::for_test("facts_of_a_graph");
    for round in 0..rounds(40) {
        let mut graph = Graph::fresh();
        for _ in 0..40 {
            let before = graph.clone();
            if graph.apply(ticket_of(&ticket(&mut random, &ALL_IDS[round % 4]))).is_err() {
                assert_eq!(graph, before);
            }
        }
        let expected: Vec<u32> = facts_in(graph.image()).unwrap().facts().map(|f| f.word()).collect();
        assert_eq!(words(&graph), expected);
        assert_eq!(graph.count_facts(), expected.len());
        assert_eq!(Graph::load(graph.image()), Ok(graph));
    }
}

#[test]
fn lists_leave_what_their_tickets_leave_one_by_one() {
    let mut random = Random::for_test("lists_leave");
    for round in 0..rounds(40) {
        let mut graph = Graph::fresh();
        for (calls, length) in [(&PLAIN, 0), (&PLAIN, 1), (&PLAIN, 60), (&OPERATOR, 0), (&OPERATOR, 60)] {
            run_by(calls, &mut graph, &records(&mut random, &ALL_IDS[round % 4], length));
        }
    }
}

/// One call counts 65,535 tickets, so this list is cut. Operators run it on what it leaves.
#[test]
fn a_list_of_70_000_tickets_is_run_whole() {
    let mut random = Random::for_test("a_list_of_70_000");
    let list: Vec<u8> = long_list(&mut random, 70_000).concat();
    let mut graph = Graph::fresh();
    for calls in [&PLAIN, &OPERATOR] {
        let answers = run_by(calls, &mut graph, &list);
        assert_eq!(answers.len(), 70_000);
        assert!(answers[65_535..].iter().any(|answer| answer[1] > 0));
    }
}

/// The library has no state, so calls on one graph by eight threads at once leave what one call leaves.
#[test]
fn threads_run_lists_at_once() {
    let mut random = Random::for_test("threads_run_lists");
    let mut graph = Graph::fresh();
    run(&mut graph, &records(&mut random, &MANY, 40));
    let tickets = tickets_of(&records(&mut random, &MANY, 400));
    let call = || {
        let mut copy = graph.clone();
        (copy.apply_all(&tickets), copy)
    };
    let expected = call();
    assert!(expected.0.iter().any(Result::is_err) && expected.1 != graph);
    thread::scope(|scope| {
        let threads = [(); 8].map(|()| scope.spawn(call));
        for thread in threads {
            assert_eq!(thread.join().expect("no call panics"), expected);
        }
    });
}

#[test]
fn lists_are_run_whole_or_not_at_all() {
    for calls in [&PLAIN, &OPERATOR] {
        all_or_none(calls);
    }
}

fn all_or_none(calls: &Calls) {
    let mut random = Random::for_test("lists_are_run_whole");
    let mut whole = 0;
    for round in 0..rounds(200) {
        let ids = &ALL_IDS[round % 4];
        let mut graph = Graph::fresh();
        let _ = graph.apply_all(&tickets_of(&records(&mut random, ids, 30)));
        let (before, mut after) = (graph.clone(), graph.clone());
        let tickets = tickets_of(&records(&mut random, ids, round % 5));
        let outcomes = (calls.all)(&mut after, &tickets);
        match outcomes.iter().position(Result::is_err) {
            Some(place) => {
                let refusal = outcomes[place].unwrap_err();
                let refused = (calls.all_or_none)(&mut graph, &tickets);
                assert_eq!(refused, Err(RefusedTicket { place, refusal }));
                assert_eq!(graph, before);
            }
            None => {
                let count = |one: &Graph, other: &Graph| one.all_facts().filter(|f| !other.has(*f)).count();
                let change = (calls.all_or_none)(&mut graph, &tickets).unwrap();
                assert_eq!(usize::from(change.added), count(&after, &before));
                assert_eq!(usize::from(change.removed), count(&before, &after));
                assert_eq!(graph, after);
                whole += 1;
            }
        }
    }
    assert!(whole >= rounds(40));
}

#[test]
fn kinds_have_the_numbers_1_to_11() {
    for (number, kind) in (1..).zip(Kind::ALL) {
        assert_eq!(kind.number(), number);
    }
}

/// Each id but 1 is a class of a range, and 1 is none: word, ticket and graph tell all ranges apart.
#[test]
fn ranges_are_told_apart_by_their_ids() {
    assert_eq!(Range::class(1), Err(Refusal::BadIds));
    let classes = (0..=255).filter(|id| *id != 1).map(|id| (id, Range::class(id).unwrap()));
    let ranges: Vec<(u8, Range)> = classes.chain([(1, Range::Literal)]).collect();
    for (id, range) in &ranges {
        let asked = Ticket::insert_property(20, 0, *range);
        assert_eq!(asked.bytes(), [1, 2, 20, 0, *id]);
        let fact = |range: Range| Fact::Range { property: 20, range };
        assert_eq!(fact(*range).word(), u32::from_be_bytes([8, 20, *id, 0]));
        let mut graph = Graph::fresh();
        if *id == 20 {
            assert_eq!(graph.apply(asked), Err(Refusal::Clashing));
            continue;
        }
        graph.apply(asked).unwrap();
        let held: Vec<u8> =
            ranges.iter().filter(|(_, other)| graph.has(fact(*other))).map(|(id, _)| *id).collect();
        assert_eq!(held, [*id]);
    }
}
