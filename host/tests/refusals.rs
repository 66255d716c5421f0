//! What a refusal tells beside its number: the bytes that an output needs, the rule that a graph breaks.

mod generator;
mod independent;

use generator::graphs::{broken, image};
use generator::tickets::{records, ALL_IDS};
use generator::{rounds, Random};
use independent::rules::{first_broken, place_of};
use vimelosa_host::{apply_list, apply_operator_list, apply_operator_ticket, apply_ticket, check_image};
use vimelosa_host::{Change, Graph, Range, Refusal, Rule, Ticket, LONGEST_IMAGE};

#[test]
fn a_short_output_is_told_how_many_bytes_are_needed() {
    let mut random = Random::for_test("a_short_output");
    for round in 0..rounds(40) {
        let list = records(&mut random, &ALL_IDS[round % 4], 30);
        let tickets: Vec<Ticket> = list.chunks(5).map(|bytes| bytes.try_into().unwrap()).collect();
        let mut graph = Graph::fresh();
        assert_eq!(graph.apply_all(&tickets).len(), 30);
        let needed = graph.image().len();
        let (mut answers, mut output) = ([99; 30], vec![99; random.below(needed)]);
        let refused = Refusal::ShortOutput { needed };
        let nothing_new = Ticket::insert_class(0).bytes();
        assert_eq!(apply_ticket(graph.image(), &nothing_new, &mut output), Err(refused));
        assert_eq!(apply_list(Graph::fresh().image(), &list, &mut answers, &mut output), Err(refused));
        assert!(answers.iter().chain(&output).all(|byte| *byte == 99));
        let mut enough = vec![0; needed];
        let applied = apply_list(Graph::fresh().image(), &list, &mut answers, &mut enough).unwrap();
        assert_eq!((applied.length, &enough[..]), (needed, graph.image()));
    }
}

/// A list has an answer byte for each ticket, and its counts have 16 bits.
#[test]
fn a_list_needs_answers_that_can_be_counted() {
    let fresh = Graph::fresh();
    let mut output = [99; LONGEST_IMAGE];
    for (tickets, bytes, answers) in [(65_535, 0, 65_535), (65_534, 3, 65_535), (0, 0, 0)] {
        let list = vec![0; 5 * tickets + bytes];
        let applied = apply_list(fresh.image(), &list, &mut vec![0; answers], &mut output).unwrap();
        assert_eq!((applied.accepted, usize::from(applied.refused)), (0, answers));
        assert_eq!(&output[..applied.length], fresh.image());
    }
    for (tickets, bytes, answers) in [(65_536, 0, 65_536), (65_535, 1, 70_000), (2, 0, 1), (0, 1, 0)] {
        let (list, mut told) = (vec![0; 5 * tickets + bytes], vec![99; answers]);
        assert_eq!(apply_list(fresh.image(), &list, &mut told, &mut []), Err(Refusal::FewAnswers));
        assert!(told.iter().all(|byte| *byte == 99));
    }
}

/// Every call that reads the image names the first rule that its graph breaks.
#[test]
fn an_inconsistent_image_is_told_its_rule() {
    let mut random = Random::for_test("an_inconsistent_image");
    let mut told = Vec::new();
    for round in 0..rounds(400) {
        let graph = broken(&mut random, &ALL_IDS[round % 4]);
        let image = image(&graph);
        let rule = first_broken(&graph).map(|rule| Rule::try_from(place_of(rule) as u16).unwrap());
        let expected = rule.map_or(Ok(()), |rule| Err(Refusal::Inconsistent { rule }));
        assert_eq!(check_image(&image), expected);
        assert_eq!(Graph::load(&image).map(|_| ()), expected);
        let mut output = [0; LONGEST_IMAGE];
        let nothing_new = Ticket::insert_class(0).bytes();
        assert_eq!(apply_ticket(&image, &nothing_new, &mut output).map(|_| ()), expected);
        assert_eq!(apply_list(&image, &[], &mut [], &mut output).map(|_| ()), expected);
        let no_class = Ticket::delete_literal(0).bytes();
        assert_eq!(apply_operator_ticket(&image, &no_class, &mut output).map(|_| ()), expected);
        assert_eq!(apply_operator_list(&image, &[], &mut [], &mut output).map(|_| ()), expected);
        told.extend(rule);
    }
    told.sort_unstable();
    told.dedup();
    assert!(told.len() > 10, "{told:?}");
}

#[test]
fn tickets_that_name_something_by_id_1_are_refused() {
    let tickets = [
        Ticket::insert_class(1),
        Ticket::insert_property(1, 2, Range::Literal),
        Ticket::insert_property(5, 1, Range::Literal),
        Ticket::insert_individual(1),
        Ticket::insert_literal(1),
        Ticket::insert_subclass(1, 2),
        Ticket::insert_subclass(2, 1),
        Ticket::insert_subproperty(1, 5),
        Ticket::insert_subproperty(5, 1),
        Ticket::insert_member(1, 2),
        Ticket::insert_member(4, 1),
        Ticket::insert_value(1, 4, 5),
        Ticket::insert_value(4, 1, 5),
        Ticket::insert_value(4, 6, 1),
        Ticket::insert_exclusive(1),
        Ticket::delete_class(1),
        Ticket::delete_property(1),
        Ticket::delete_individual(1),
        Ticket::delete_literal(1),
        Ticket::delete_subclass(1, 2),
        Ticket::delete_subclass(2, 1),
        Ticket::delete_subproperty(1, 5),
        Ticket::delete_subproperty(5, 1),
        Ticket::delete_member(1, 2),
        Ticket::delete_member(4, 1),
        Ticket::delete_value(1, 4, 5),
        Ticket::delete_value(4, 1, 5),
        Ticket::delete_value(4, 6, 1),
        Ticket::delete_exclusive(1),
    ];
    for ticket in tickets {
        assert_eq!(Graph::fresh().apply(ticket), Err(Refusal::BadIds), "{ticket:?}");
        assert_eq!(Graph::fresh().apply_as_operator(ticket), Err(Refusal::BadIds), "{ticket:?}");
        assert_eq!(Graph::fresh().preview(ticket), Err(Refusal::BadIds), "{ticket:?}");
    }
}

/// A class is made by its own ticket, by a subclass link and by a property from it or to it; an individual, a
/// literal or a property of its id makes none.
#[test]
fn members_need_a_class_that_is_there() {
    let to_class = |class: u8| Range::class(class).unwrap();
    let makers = [
        Ticket::insert_class(3),
        Ticket::insert_subclass(3, 2),
        Ticket::insert_subclass(2, 3),
        Ticket::insert_property(5, 3, Range::Literal),
        Ticket::insert_property(5, 2, to_class(3)),
    ];
    let others = [
        Ticket::insert_class(2),
        Ticket::insert_individual(3),
        Ticket::insert_literal(3),
        Ticket::insert_property(3, 2, to_class(4)),
        Ticket::insert_member(3, 0),
    ];
    let outcome = |before: Ticket| {
        let mut graph = Graph::fresh();
        graph.apply(before).unwrap();
        graph.apply(Ticket::insert_member(20, 3)).map(|_| graph.members_of(3).eq([20]))
    };
    assert_eq!(makers.map(outcome), [Ok(true); 5]);
    assert_eq!(others.map(outcome), [Err(Refusal::UnknownClass); 5]);
}

/// A graph of properties 5 and 6 from Resource to Resource, 6 under 5.
fn linked_properties() -> Graph {
    let mut graph = Graph::fresh();
    let resource = Range::class(0).unwrap();
    for property in [5, 6] {
        graph.apply(Ticket::insert_property(property, 0, resource)).unwrap();
    }
    graph.apply(Ticket::insert_subproperty(6, 5)).unwrap();
    graph
}

/// Only a property of the graph is made exclusive; what else the id is does not matter.
#[test]
fn what_is_exclusive_is_a_property() {
    let others = [Ticket::insert_class(7), Ticket::insert_individual(7), Ticket::insert_literal(7)];
    for other in others {
        let mut graph = linked_properties();
        graph.apply(other).unwrap();
        assert_eq!(graph.apply(Ticket::insert_exclusive(7)), Err(Refusal::UnknownProperty), "{other}");
        assert_eq!(graph.apply(Ticket::insert_exclusive(0)), Err(Refusal::UnknownProperty));
        assert_eq!(graph.apply(Ticket::delete_exclusive(7)), Ok(Change::default()));
    }
}

/// A second individual is refused by way of the exclusive property and of one under it; not by way of one
/// above it.
#[test]
fn a_value_has_one_individual_for_an_exclusive_property() {
    let one = Change { added: 1, removed: 0 };
    for (exclusive, second) in [(5, Err(Refusal::Clashing)), (6, Ok(one))] {
        let mut graph = linked_properties();
        for individual in [20, 21, 30] {
            graph.apply(Ticket::insert_individual(individual)).unwrap();
        }
        graph.apply(Ticket::insert_value(20, 30, 6)).unwrap();
        assert_eq!(graph.apply(Ticket::insert_exclusive(exclusive)), Ok(one));
        assert_eq!(graph.apply(Ticket::insert_exclusive(exclusive)), Ok(Change::default()));
        assert_eq!(graph.apply(Ticket::insert_value(21, 30, 5)), second, "{exclusive}");
        assert_eq!(graph.apply(Ticket::insert_value(21, 30, 6)), Err(Refusal::Clashing), "{exclusive}");
        assert_eq!(graph.apply(Ticket::insert_value(20, 30, 6)), Ok(Change::default()));
    }
}

/// Nor is a property made exclusive while a value has two.
#[test]
fn a_value_of_two_individuals_keeps_a_property_from_being_exclusive() {
    let mut graph = linked_properties();
    graph.apply_all_or_none(&[Ticket::insert_value(20, 30, 5), Ticket::insert_value(21, 30, 6)]).unwrap();
    assert_eq!(graph.apply(Ticket::insert_exclusive(5)), Err(Refusal::Clashing));
    graph.apply(Ticket::insert_exclusive(6)).unwrap();
    graph.apply(Ticket::delete_individual(21)).unwrap();
    graph.apply(Ticket::insert_exclusive(5)).unwrap();
}

/// A link carries values up: it is refused if two individuals would then have one, be it that both have it
/// for the lower property.
#[test]
fn values_that_would_meet_keep_a_property_from_coming_under_an_exclusive_one() {
    let below_5 = [Ticket::insert_value(20, 30, 5), Ticket::insert_value(21, 30, 7)];
    let both_below = [Ticket::insert_value(20, 30, 7), Ticket::insert_value(21, 30, 7)];
    for values in [below_5, both_below] {
        let mut graph = linked_properties();
        graph.apply(Ticket::insert_property(7, 0, Range::class(0).unwrap())).unwrap();
        graph.apply(Ticket::insert_exclusive(5)).unwrap();
        graph.apply_all_or_none(&values).unwrap();
        for over in [5, 6] {
            assert_eq!(graph.apply(Ticket::insert_subproperty(7, over)), Err(Refusal::Clashing));
        }
        graph.apply(Ticket::delete_exclusive(5)).unwrap();
        graph.apply(Ticket::insert_subproperty(7, 6)).unwrap();
    }
}
