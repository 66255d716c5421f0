//! Tickets looked at before they are agreed to, through the safe calls: what is shown is what is done, on the
//! graph that was looked at and on one that changed since, or nothing is done.

mod generator;
mod independent;
mod vector_files;

use generator::tickets::{bad_ticket, holders, records, ticket, Ids, ALL_IDS};
use generator::{rounds, Random};
use vector_files::{class_cases, exclusive_cases};
use vimelosa_host::{Change, Fact, Graph, Preview, Range, Refusal, Ticket, MOST_FACTS};

fn tickets_of(list: &[u8]) -> Vec<Ticket> {
    list.chunks_exact(5).map(|bytes| bytes.try_into().unwrap()).collect()
}

/// A graph that tickets left.
fn some_graph(random: &mut Random, ids: &Ids) -> Graph {
    let mut graph = Graph::fresh();
    let made = [records(random, ids, 30), holders(random, ids, 20)].concat();
    assert_eq!(graph.apply_all(&tickets_of(&made)).len(), made.len() / 5);
    graph
}

/// A ticket of any sort; one in three deletes a fact of the graph.
fn some_ticket(random: &mut Random, ids: &Ids, graph: &Graph) -> Ticket {
    let facts: Vec<Fact> = graph.all_facts().collect();
    let (fact, sort) = (random.pick(&facts), random.below(15));
    let [a, b, c] = fact.ids();
    Ticket::of_bytes(match sort {
        0 => bad_ticket(random, ids),
        1..=5 => [2, fact.kind().number(), a, b, c],
        _ => ticket(random, ids),
    })
}

/// What a ticket does to a copy of the graph, and the graph then.
fn applied(graph: &Graph, ticket: Ticket) -> (Result<Change, Refusal>, Graph) {
    let mut after = graph.clone();
    (after.apply(ticket), after)
}

/// The same of a preview.
fn committed(graph: &Graph, preview: &Preview) -> (Result<Change, Refusal>, Graph) {
    let mut after = graph.clone();
    (preview.commit(&mut after), after)
}

/// A preview shows the difference that the ticket makes, ascending, and committing makes it. A ticket that is
/// refused has the same refusal and no preview.
#[test]
fn what_is_shown_is_done() {
    let mut random = Random::for_test("what_is_shown");
    let (mut met, mut changed) = ([0; 19], [0; 2]);
    for round in 0..rounds(60) {
        let ids = Ids { deletions: 3, ..ALL_IDS[round % 4] };
        let graph = some_graph(&mut random, &ids);
        for _ in 0..40 {
            let ticket = some_ticket(&mut random, &ids, &graph);
            let (outcome, after) = applied(&graph, ticket);
            met[outcome.map_or_else(|refusal| usize::from(refusal.number()), |_| 0)] += 1;
            let preview = match graph.preview(ticket) {
                Ok(preview) => preview,
                Err(refusal) => {
                    assert_eq!(outcome, Err(refusal), "{ticket}");
                    continue;
                }
            };
            let diff = graph.diff(&after);
            assert_eq!(preview.ticket(), ticket);
            assert_eq!((preview.added(), preview.removed()), (&diff.only_there[..], &diff.only_here[..]));
            assert_eq!(outcome, Ok(preview.change()), "{ticket}");
            assert_eq!(committed(&graph, &preview), (outcome, after), "{ticket}");
            changed[0] += usize::from(preview.change().added > 1);
            changed[1] += usize::from(preview.change().removed > 1);
        }
    }
    assert!([0, 5, 6, 7, 8, 9, 10, 16].iter().all(|number| met[*number] > 0), "{met:?}");
    assert!(changed.iter().all(|count| *count > 50), "{changed:?}");
}

/// Once other tickets were run the preview is committed if it still holds; else it is out of date, unless the
/// ticket is refused, and the graph stays.
#[test]
fn what_changed_since_is_out_of_date() {
    let mut random = Random::for_test("what_changed_since");
    let mut met = [0; 3];
    for round in 0..rounds(60) {
        let ids = Ids { deletions: 3, ..ALL_IDS[round % 4] };
        let mut graph = some_graph(&mut random, &ids);
        for _ in 0..40 {
            let ticket = some_ticket(&mut random, &ids, &graph);
            let shown = graph.preview(ticket);
            for _ in 0..random.pick(&[1, 2, 8]) {
                let other = some_ticket(&mut random, &ids, &graph);
                let _ = graph.apply(other);
            }
            let (outcome, after) = applied(&graph, ticket);
            let expected = match (&shown, graph.preview(ticket)) {
                (Err(_), _) => continue,
                (Ok(_), Err(refusal)) => (0, (Err(refusal), graph.clone())),
                (Ok(shown), Ok(now)) if *shown == now => (1, (outcome, after)),
                (Ok(_), Ok(_)) => (2, (Err(Refusal::OutOfDate), graph.clone())),
            };
            met[expected.0] += 1;
            assert_eq!(committed(&graph, &shown.unwrap()), expected.1, "{ticket}");
        }
    }
    assert!(met[0] > 3 && met[1] > 100 && met[2] > 30, "{met:?}");
}

/// The vectors of tickets, each looked at and then agreed to.
#[test]
fn cases_by_looking_and_agreeing() {
    for case in class_cases().into_iter().chain(exclusive_cases()) {
        let (mut graph, mut answers) = (Graph::fresh(), Vec::new());
        if case.words != MOST_FACTS || case.list.len() % 5 != 0 {
            continue;
        }
        for ticket in tickets_of(&case.list) {
            let outcome = graph.preview(ticket).and_then(|preview| preview.commit(&mut graph));
            answers.push(match outcome {
                Ok(Change { added, removed }) => [0, added.into(), removed.into()],
                Err(refusal) => [refusal.number().into(), 0, 0],
            });
        }
        let words: Vec<u32> = graph.all_facts().map(|fact| fact.word()).collect();
        assert_eq!((answers, words), (case.answers, case.left), "{}", case.name);
    }
}

/// Committed once, a preview that shows something is out of date; one that shows nothing is committed again
/// and again.
#[test]
fn a_preview_is_committed_once() {
    let mut graph = Graph::fresh();
    for ticket in [Ticket::insert_subclass(3, 2), Ticket::delete_class(2), Ticket::insert_member(4, 3)] {
        let preview = graph.preview(ticket).unwrap();
        assert_eq!(preview.commit(&mut graph), Ok(preview.change()));
        let after = graph.clone();
        assert_eq!(preview.commit(&mut graph), Err(Refusal::OutOfDate), "{ticket}");
        let nothing = graph.preview(ticket).unwrap();
        assert_eq!(
            (nothing.added(), nothing.removed(), nothing.change()),
            (&[][..], &[][..], Change::default())
        );
        for _ in 0..3 {
            assert_eq!(nothing.commit(&mut graph), Ok(Change::default()), "{ticket}");
        }
        assert_eq!(graph, after);
    }
}

/// What another ticket brings or takes of what was shown is seen, what it does elsewhere is not.
#[test]
fn changes_elsewhere_do_not_matter() {
    let (pump, valve, p7, p8) = (3, 4, 20, 21);
    let mut graph = Graph::fresh();
    let made = [Ticket::insert_class(pump), Ticket::insert_class(valve), Ticket::insert_member(p7, pump)];
    graph.apply_all_or_none(&made).unwrap();
    let preview = graph.preview(Ticket::delete_class(pump)).unwrap();
    for (ticket, outcome) in [
        (Ticket::insert_member(p8, valve), Ok(preview.change())),
        (Ticket::delete_class(valve), Ok(preview.change())),
        (Ticket::insert_member(p8, pump), Err(Refusal::OutOfDate)),
        (Ticket::delete_individual(p7), Err(Refusal::OutOfDate)),
        (Ticket::insert_property(5, pump, Range::Literal), Err(Refusal::OutOfDate)),
    ] {
        let mut other = graph.clone();
        other.apply(ticket).unwrap();
        let (found, after) = committed(&other, &preview);
        assert_eq!((found, after == other), (outcome, outcome.is_err()), "{ticket}");
    }
}

/// A ticket that the graph has come to refuse gets its own refusal.
#[test]
fn a_refusal_comes_before_out_of_date() {
    let mut graph = Graph::fresh();
    graph.apply(Ticket::insert_class(3)).unwrap();
    let member = graph.preview(Ticket::insert_member(4, 3)).unwrap();
    let class = graph.preview(Ticket::insert_class(4)).unwrap();
    graph.apply(Ticket::insert_individual(4)).unwrap();
    assert_eq!(class.commit(&mut graph), Err(Refusal::Clashing));
    graph.apply(Ticket::delete_class(3)).unwrap();
    assert_eq!(member.commit(&mut graph), Err(Refusal::UnknownClass));
}

/// On a full graph nothing is shown of an insertion, and a deletion shows what makes room.
#[test]
fn a_full_graph_is_looked_at() {
    let mut graph = Graph::fresh();
    let links = (2..=62).map(|class| Ticket::insert_subclass(class, class + 1));
    graph.apply_all_or_none(&links.collect::<Vec<_>>()).unwrap();
    let literals: Vec<Ticket> = (100..=255).map(Ticket::insert_literal).collect();
    graph.apply_all_or_none(&literals[..MOST_FACTS - graph.count_facts()]).unwrap();
    let insertion = Ticket::insert_literal(99);
    assert_eq!(graph.preview(insertion), Err(Refusal::TooMany));
    let preview = graph.preview(Ticket::delete_class(63)).unwrap();
    assert_eq!(preview.change(), Change { added: 0, removed: 63 });
    preview.commit(&mut graph).unwrap();
    assert_eq!(graph.preview(insertion).unwrap().added(), [Fact::Literal(99)]);
}
