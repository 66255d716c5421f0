//! Operators' tickets through the safe calls: with a kind for operators what the plain calls do, with another
//! nothing; whatever they are, the class tree and the properties stay.

mod generator;
mod independent;

use generator::operators::{operator_list, operator_ticket};
use generator::tickets::{bad_ticket, holders, records, Ids, ALL_IDS};
use generator::{rounds, Random};
use vimelosa_host::{apply_operator_list, apply_operator_ticket, Change, Fact, Graph, Kind, Range, Refusal};
use vimelosa_host::{Ticket, LONGEST_IMAGE};

fn tickets_of(list: &[u8]) -> Vec<Ticket> {
    list.chunks_exact(5).map(|bytes| bytes.try_into().unwrap()).collect()
}

/// A graph that plain tickets left.
fn some_graph(random: &mut Random, ids: &Ids) -> Graph {
    let mut graph = Graph::fresh();
    let made = [records(random, ids, 30), holders(random, ids, 20)].concat();
    assert_eq!(graph.apply_all(&tickets_of(&made)).len(), made.len() / 5);
    graph
}

/// The facts of the kinds that are not for operators.
fn other_facts(graph: &Graph) -> Vec<Fact> {
    graph.all_facts().filter(|fact| !fact.kind().is_for_operators()).collect()
}

fn is_for_operators(ticket: Ticket) -> bool {
    Kind::try_from(ticket.bytes()[1]).map_or(false, Kind::is_for_operators)
}

/// A ticket on copies of a graph by both calls; the operators' outcome.
fn run_by_both(graph: &mut Graph, ticket: Ticket) -> Result<Change, Refusal> {
    let (before, mut plain) = (graph.clone(), graph.clone());
    let (expected, outcome) = (plain.apply(ticket), graph.apply_as_operator(ticket));
    match expected {
        Err(Refusal::BadOperation | Refusal::BadKind | Refusal::BadIds) => assert_eq!(outcome, expected),
        _ if is_for_operators(ticket) => assert_eq!((outcome, &*graph), (expected, &plain), "{ticket}"),
        _ => assert_eq!(outcome, Err(Refusal::NotForOperators), "{ticket}"),
    }
    assert_eq!(outcome.is_err() || outcome == Ok(Change::default()), *graph == before, "{ticket}");
    outcome
}

/// Each ticket on what the ones before left. The outcomes of both sorts are met, by insertions and deletions.
#[test]
fn a_kind_for_operators_is_run_as_in_the_plain_call() {
    let mut random = Random::for_test("a_kind_for_operators");
    let (mut met, mut changed) = ([0; 18], [0; 3]);
    for round in 0..rounds(60) {
        let ids = Ids { deletions: 3, ..ALL_IDS[round % 4] };
        let mut graph = some_graph(&mut random, &ids);
        for _ in 0..60 {
            let is_bad = random.is_one_in(15);
            let draw = if is_bad { bad_ticket } else { operator_ticket };
            let ticket = Ticket::of_bytes(draw(&mut random, &ids));
            let outcome = run_by_both(&mut graph, ticket);
            met[outcome.map_or_else(|refusal| usize::from(refusal.number()), |_| 0)] += 1;
            if outcome.map_or(false, |change| change != Change::default()) {
                changed[usize::from(ticket.bytes()[0])] += 1;
            }
        }
    }
    assert!([0, 5, 6, 7, 8, 9, 10, 16, 17].iter().all(|number| met[*number] > 5), "{met:?}");
    assert!(changed[1] > 100 && changed[2] > 100, "{changed:?}");
}

/// Of random lists, ticket by ticket and as a whole.
#[test]
fn the_facts_of_other_kinds_stay() {
    let mut random = Random::for_test("the_facts_of_other_kinds_stay");
    for round in 0..rounds(60) {
        let ids = Ids { deletions: 2 + round % 3, ..ALL_IDS[round % 4] };
        let mut graph = some_graph(&mut random, &ids);
        let others = other_facts(&graph);
        let drawn = [operator_list(&mut random, &ids, 40), records(&mut random, &ids, 20)].concat();
        let tickets = tickets_of(&drawn);
        let mut at_once = graph.clone();
        let answers = at_once.apply_all_as_operator(&tickets);
        for (ticket, answer) in tickets.iter().zip(answers) {
            assert_eq!(graph.apply_as_operator(*ticket).map(|_| ()), answer, "{ticket}");
            assert_eq!(other_facts(&graph), others, "{ticket}");
        }
        assert_eq!(graph, at_once);
    }
}

/// All tickets there are of the kinds that are not for operators, with a few ids, good and bad.
#[test]
fn no_ticket_of_another_kind_is_run() {
    let graph = some_graph(&mut Random::for_test("no_ticket_of_another_kind"), &ALL_IDS[1]);
    let ids = [0, 1, 2, 3, 5, 8, 10, 200];
    let kinds = Kind::ALL.into_iter().filter(|kind| !kind.is_for_operators());
    for kind in kinds.map(Kind::number) {
        for operation in [1, 2] {
            for (a, b, c) in ids.iter().flat_map(|a| ids.map(|b| (*a, b, [0, 1, 2]))) {
                for ticket in c.map(|c| Ticket::of_bytes([operation, kind, a, b, c])) {
                    let refused = ticket.asks().err().unwrap_or(Refusal::NotForOperators);
                    assert_eq!(graph.clone().apply_as_operator(ticket), Err(refused), "{ticket}");
                }
            }
        }
    }
}

/// 17 comes after 5, 6 and 7, and before 8, 9, 10 and 11.
#[test]
fn refusal_17_has_its_place() {
    let mut graph = Graph::fresh();
    let made = [Ticket::insert_subclass(3, 2), Ticket::insert_property(5, 2, Range::Literal)];
    graph.apply_all_or_none(&made).unwrap();
    let mut outcome = |bytes: [u8; 5]| graph.apply_as_operator(Ticket::of_bytes(bytes)).map(|_| ());
    for (bytes, refusal) in [
        ([3, 1, 9, 0, 0], Refusal::BadOperation),
        ([1, 7, 5, 2, 0], Refusal::BadKind),
        ([1, 1, 9, 9, 0], Refusal::BadIds),
        ([1, 1, 1, 0, 0], Refusal::BadIds),
        ([2, 1, 0, 0, 0], Refusal::NotForOperators),
        ([2, 5, 2, 0, 0], Refusal::NotForOperators),
        ([1, 6, 5, 6, 0], Refusal::NotForOperators),
        ([1, 11, 6, 0, 0], Refusal::NotForOperators),
        ([1, 5, 2, 3, 0], Refusal::NotForOperators),
        ([2, 9, 4, 0, 0], Refusal::Guarded),
        ([1, 10, 4, 7, 6], Refusal::UnknownProperty),
        ([1, 9, 4, 6, 0], Refusal::UnknownClass),
        ([1, 9, 2, 3, 0], Refusal::Clashing),
    ] {
        assert_eq!(outcome(bytes), Err(refusal), "{bytes:?}");
    }
}

/// On a full graph too: a class is not for operators, and a device finds no room.
#[test]
fn refusal_17_comes_before_11() {
    let mut graph = Graph::fresh();
    let links = (2..=62).map(|class| Ticket::insert_subclass(class, class + 1));
    graph.apply_all_or_none(&links.collect::<Vec<_>>()).unwrap();
    let literals: Vec<Ticket> = (100..=255).map(Ticket::insert_literal).collect();
    let free = 2048 - graph.count_facts();
    graph.apply_all_or_none(&literals[..free]).unwrap();
    assert_eq!(graph.apply(Ticket::insert_class(90)), Err(Refusal::TooMany));
    assert_eq!(graph.apply_as_operator(Ticket::insert_class(90)), Err(Refusal::NotForOperators));
    assert_eq!(graph.apply_as_operator(Ticket::insert_individual(90)), Err(Refusal::TooMany));
    graph.apply_as_operator(Ticket::delete_literal(100)).unwrap();
    graph.apply_as_operator(Ticket::insert_literal(90)).unwrap();
    assert_eq!(graph.count_facts(), 2048);
}

/// A short output is told its length, and 17 comes before it; few answers come before both.
#[test]
fn lent_bytes_stay_on_a_refusal() {
    let fresh = Graph::fresh();
    let (device, class) = (Ticket::insert_individual(4).bytes(), Ticket::insert_class(2).bytes());
    let (mut answers, mut output) = ([99; 2], [99; 71]);
    let short = Refusal::ShortOutput { needed: 72 };
    assert_eq!(apply_operator_ticket(fresh.image(), &device, &mut output), Err(short));
    assert_eq!(apply_operator_ticket(fresh.image(), &class, &mut []), Err(Refusal::NotForOperators));
    assert_eq!(apply_operator_ticket(fresh.image(), &class[..4], &mut []), Err(Refusal::BadLength));
    assert_eq!(apply_operator_ticket(&[], &class, &mut []), Err(Refusal::Malformed));
    let list = [class, device].concat();
    assert_eq!(apply_operator_list(fresh.image(), &list, &mut answers, &mut output), Err(short));
    let few = apply_operator_list(fresh.image(), &list, &mut answers[..1], &mut output);
    assert_eq!(few, Err(Refusal::FewAnswers));
    assert!(answers.iter().chain(&output).all(|byte| *byte == 99));
    let mut enough = [99; LONGEST_IMAGE];
    let applied = apply_operator_list(fresh.image(), &list, &mut answers, &mut enough).unwrap();
    assert_eq!((applied.accepted, applied.refused, applied.length, answers), (1, 1, 72, [17, 0]));
    assert!(enough[72..].iter().all(|byte| *byte == 99));
}
