//! The calls across the C interface on a thread with a small stack: texts of full tables, and the tickets
//! whose side effects nest deepest, singly, in a list, and asked about and committed. A side effect is put in
//! with side effects of its own, so the depth is that of the longest way through a graph: a chain of links
//! below the new link, then a chain above it, where each step goes to the nearest id first.

use std::fmt::Debug;
use std::thread;
use vimelosa_host::{
    ask_raw, call_list_raw, call_operator_list_raw, call_operator_raw, call_raw, commit_raw,
};
use vimelosa_host::{check_raw, read_triples_raw, write_triples_raw};
use vimelosa_host::{Graph, Range, Ticket, LONGEST_IMAGE, LONGEST_TEXT, MOST_FACTS, RESOURCE};

/// The stack that a thread is to have. The deepest call known takes three quarters of it.
const STACK: usize = 64 * 1024;

const FIRST: u8 = 20;
const ACCEPTED: u64 = 0;
const TOO_MANY: u64 = 11;
const SHORT_OUTPUT: u64 = 13;

/// Two chains with the link from the top of the lower to the bottom of the upper left out. Ids rise with the
/// distance from that link, so that the nearest comes first.
struct Chains {
    lower: Vec<u8>,
    upper: Vec<u8>,
}

impl Chains {
    fn of_lengths(lower: u8, upper: u8) -> Chains {
        let middle = FIRST + lower;
        Chains { lower: (FIRST..middle).collect(), upper: (middle..middle + upper).collect() }
    }

    /// The links of the chains, each from an id to the one over it.
    fn links(&self) -> Vec<(u8, u8)> {
        let down = self.lower.windows(2).map(|pair| (pair[1], pair[0]));
        let up = self.upper.windows(2).map(|pair| (pair[0], pair[1]));
        down.chain(up).collect()
    }

    /// The link that joins them.
    fn joint(&self) -> (u8, u8) {
        (self.lower[0], self.upper[0])
    }

    fn bottom(&self) -> u8 {
        *self.lower.last().expect("a chain has an id")
    }
}

fn run(graph: &mut Graph, tickets: impl IntoIterator<Item = Ticket>) {
    for ticket in tickets {
        graph.apply(ticket).expect("there is room");
    }
}

fn class_chains(chains: &Chains) -> Graph {
    let mut graph = Graph::fresh();
    run(&mut graph, chains.links().into_iter().map(|(low, high)| Ticket::insert_subclass(low, high)));
    graph
}

/// A property that has any individual as value.
fn open_property(property: u8, domain: u8) -> Ticket {
    Ticket::insert_property(property, domain, Range::class(RESOURCE).expect("Resource is a class"))
}

fn property_chains(chains: &Chains) -> Graph {
    let mut graph = Graph::fresh();
    let properties = chains.lower.iter().chain(&chains.upper);
    run(&mut graph, properties.map(|property| open_property(*property, RESOURCE)));
    run(&mut graph, chains.links().into_iter().map(|(low, high)| Ticket::insert_subproperty(low, high)));
    run(&mut graph, [Ticket::insert_value(2, 3, chains.bottom())]);
    graph
}

/// The calls for one ticket and for a list.
type Calls = (fn(&[u8], &[u8], &mut [u8]) -> u64, fn(&[u8], &[u8], &mut [u8], &mut [u8]) -> u64);

const PLAIN: Calls = (call_raw, call_list_raw);
const OPERATOR: Calls = (call_operator_raw, call_operator_list_raw);

/// What a call answers, and the bytes or words that it leaves in what it was lent to write to.
type Left<T> = (u64, Vec<T>, Vec<T>);

/// What the call leaves on a thread with a small stack is what it leaves on the test's own.
fn on_small_stack<T>(call: impl Fn() -> Left<T> + Send + 'static) -> Left<T>
where
    T: Debug + PartialEq + Send + 'static,
{
    let left = call();
    let small = thread::Builder::new().stack_size(STACK).spawn(call);
    assert_eq!(small.expect("a thread starts").join().expect("it ends"), left);
    left
}

/// The ticket by the plain calls, asked about and committed, and the check.
fn call_on_small_stack(graph: &Graph, ticket: Ticket, expected: u64) {
    run_by(PLAIN, graph, ticket, expected);
    call_in_two(graph.image(), ticket, expected);
    let image = graph.image().to_vec();
    let (answer, ..) = on_small_stack(move || (check_raw(&image), Vec::<u8>::new(), Vec::new()));
    assert_eq!(answer, 0);
}

/// The ticket asked about, and committed with the words that asking wrote.
fn call_in_two(image: &[u8], ticket: Ticket, expected: u64) {
    let held = image.to_vec();
    let (answer, mut added, mut removed) = on_small_stack(move || {
        let (mut added, mut removed) = (vec![7; MOST_FACTS], vec![7; MOST_FACTS]);
        let answer = ask_raw(&held, &ticket.bytes(), &mut added, &mut removed);
        (answer, added, removed)
    });
    assert_eq!(answer & 0xffff, expected);
    let held = image.to_vec();
    added.truncate((answer >> 16 & 0xffff) as usize);
    removed.truncate((answer >> 32 & 0xffff) as usize);
    let (answer, ..) = on_small_stack(move || {
        let mut output = vec![7; LONGEST_IMAGE];
        (commit_raw(&held, &ticket.bytes(), &added, &removed, &mut output), output, Vec::new())
    });
    assert_eq!(answer & 0xffff, expected);
}

/// The ticket by itself, and twice in a list, with an output that is as long as any image and with one that
/// is a byte shorter.
fn run_by(calls: Calls, graph: &Graph, ticket: Ticket, expected: u64) {
    call_singly(calls, graph.image().to_vec(), ticket, expected);
    for output in [LONGEST_IMAGE, LONGEST_IMAGE - 1] {
        call_with_list(calls, graph.image().to_vec(), ticket, output, expected);
    }
}

fn call_singly((call, _): Calls, image: Vec<u8>, ticket: Ticket, expected: u64) {
    let (answer, ..) = on_small_stack(move || {
        let mut output = vec![7; LONGEST_IMAGE];
        (call(&image, &ticket.bytes(), &mut output), output, Vec::new())
    });
    assert_eq!(answer & 0xffff, expected);
}

fn call_with_list((_, call): Calls, image: Vec<u8>, ticket: Ticket, output: usize, expected: u64) {
    let list = ticket.bytes().repeat(2);
    let (answer, numbers, _) = on_small_stack(move || {
        let (mut answers, mut output) = (vec![7; 3], vec![7; output]);
        let answer = call(&image, &list, &mut answers, &mut output);
        (answer, answers, output)
    });
    assert_eq!(answer & 0xffff, 0);
    assert_eq!(numbers, [expected as u8, expected as u8, 7]);
}

#[test]
fn class_chains_that_fill_the_table() {
    let chains = Chains::of_lengths(31, 31);
    let (low, high) = chains.joint();
    call_on_small_stack(&class_chains(&chains), Ticket::insert_subclass(low, high), ACCEPTED);
}

#[test]
fn class_chains_that_do_not_fit() {
    for (lower, upper) in [(42, 42), (42, 43), (41, 44), (43, 43), (10, 57), (57, 10)] {
        let chains = Chains::of_lengths(lower, upper);
        let (low, high) = chains.joint();
        call_on_small_stack(&class_chains(&chains), Ticket::insert_subclass(low, high), TOO_MANY);
    }
}

#[test]
fn property_chains_that_do_not_fit() {
    for (lower, upper) in [(41, 41), (41, 40), (39, 39)] {
        let chains = Chains::of_lengths(lower, upper);
        let (low, high) = chains.joint();
        call_on_small_stack(&property_chains(&chains), Ticket::insert_subproperty(low, high), TOO_MANY);
    }
}

/// A link between properties needs one between their domains, which joins two chains of classes.
#[test]
fn class_chains_joined_by_a_property_link() {
    let chains = Chains::of_lengths(42, 42);
    let (low, high) = chains.joint();
    let mut graph = class_chains(&chains);
    let (p, q) = (150, 151);
    let member = Ticket::insert_member(200, chains.bottom());
    let ends = [(p, low), (q, high)].map(|(property, domain)| open_property(property, domain));
    run(&mut graph, [member].into_iter().chain(ends));
    call_on_small_stack(&graph, Ticket::insert_subproperty(p, q), TOO_MANY);
}

/// A value brings its individual into the domain of its property, and so into every class of the chain above;
/// and up a chain of properties. No ticket of an operator is known to nest deeper.
#[test]
fn chains_that_a_value_climbs() {
    for (length, expected) in [(61, ACCEPTED), (62, TOO_MANY)] {
        let classes = Chains::of_lengths(1, length);
        let mut graph = class_chains(&classes);
        run(&mut graph, [open_property(150, classes.upper[0]), Ticket::insert_exclusive(150)]);
        let value = Ticket::insert_value(200, 201, 150);
        for calls in [PLAIN, OPERATOR] {
            run_by(calls, &graph, value, expected);
        }
        call_in_two(graph.image(), value, expected);
    }
    let properties = Chains::of_lengths(1, 60);
    let value = Ticket::insert_value(2, 4, properties.upper[0]);
    for calls in [PLAIN, OPERATOR] {
        run_by(calls, &property_chains(&properties), value, ACCEPTED);
    }
}

/// An output that is long enough begins with what is expected; one that is too short is refused with 13 and
/// has its sevens.
fn expect_written(answer: u64, output: &[u8], expected: &[u8]) {
    if output.len() < expected.len() {
        assert_eq!(answer & 0xffff, SHORT_OUTPUT);
        assert!(output.iter().all(|&byte| byte == 7));
    } else {
        assert_eq!(answer & 0xffff, ACCEPTED);
        assert!(output.starts_with(expected));
    }
}

/// A text is written and read, its lines in any order, with outputs that are long enough and too short.
#[test]
fn texts_of_tables_that_are_nearly_full() {
    for graph in [class_chains(&Chains::of_lengths(60, 3)), property_chains(&Chains::of_lengths(41, 41))] {
        let text = graph.to_triples();
        let backwards: String = text.split_inclusive('\n').rev().collect();
        for length in [LONGEST_TEXT, text.len() - 1] {
            let image = graph.image().to_vec();
            let (answer, written, _) = on_small_stack(move || {
                let mut output = vec![7; length];
                (write_triples_raw(&image, &mut output), output, Vec::new())
            });
            expect_written(answer, &written, text.as_bytes());
        }
        for length in [LONGEST_IMAGE, graph.image().len() - 1] {
            let text = backwards.clone().into_bytes();
            let (answer, written, _) = on_small_stack(move || {
                let mut output = vec![7; length];
                (read_triples_raw(&text, &mut output), output, Vec::new())
            });
            expect_written(answer, &written, graph.image());
        }
    }
}
