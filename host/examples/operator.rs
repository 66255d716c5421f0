//! The shift operator: devices and readings are entered, the class tree is not theirs. A class is refused
//! with 17, by itself and in a list, of which the other tickets stay; whatever an operator sends, the classes
//! and the properties are the same afterwards.

use vimelosa_host::{Fact, Graph, Range, Refusal, Ticket};

const MACHINE: u8 = 2;
const PUMP: u8 = 3;
const VALVE: u8 = 4;
const PRESSURE: u8 = 10;
const P7: u8 = 20;
const P8: u8 = 21;
const BAR_6: u8 = 30;
const BAR_7: u8 = 31;

/// What the plant's editor drew.
fn plant() -> Result<Graph, Refusal> {
    let mut graph = Graph::fresh();
    graph.apply(Ticket::insert_subclass(PUMP, MACHINE))?;
    graph.apply(Ticket::insert_property(PRESSURE, MACHINE, Range::Literal))?;
    Ok(graph)
}

/// The classes, the properties and their links.
fn class_tree(graph: &Graph) -> Vec<Fact> {
    graph.all_facts().filter(|fact| !fact.kind().is_for_operators()).collect()
}

/// A ticket that is not for operators: refusal 17, and nothing changes.
fn refuse(graph: &mut Graph, ticket: Ticket) {
    let before = graph.clone();
    let refusal = graph.apply_as_operator(ticket).expect_err("the kind is not for operators");
    println!("{ticket}: {refusal}");
    assert_eq!((refusal, refusal.number()), (Refusal::NotForOperators, 17));
    assert_eq!(*graph, before);
}

fn main() -> Result<(), Refusal> {
    let mut graph = plant()?;
    let drawn = class_tree(&graph);

    // A device, which comes into every class above its own, and a reading.
    for ticket in [Ticket::insert_member(P7, PUMP), Ticket::insert_value(P7, BAR_6, PRESSURE)] {
        let change = graph.apply_as_operator(ticket)?;
        println!("{ticket}: {} facts added", change.added);
    }
    assert!(graph.has(Fact::Member { individual: P7, class: MACHINE }));

    refuse(&mut graph, Ticket::insert_class(VALVE));
    refuse(&mut graph, Ticket::delete_class(PUMP));

    // Of a list the others stay: a new reading takes the place of the old one, and a second pump comes.
    let shift = [
        Ticket::delete_value(P7, BAR_6, PRESSURE),
        Ticket::insert_value(P7, BAR_7, PRESSURE),
        Ticket::insert_subclass(VALVE, MACHINE),
        Ticket::insert_member(P8, PUMP),
    ];
    for (ticket, answer) in shift.iter().zip(graph.apply_all_as_operator(&shift)) {
        println!("{ticket}: {}", answer.map_or_else(|refusal| refusal.to_string(), |()| "done".to_owned()));
        assert_eq!(answer.err(), (*ticket == shift[2]).then_some(Refusal::NotForOperators));
    }
    assert!(graph.values_of(P7, PRESSURE).eq([BAR_7]));
    assert!(graph.members_of(MACHINE).eq([P7, P8]));

    assert_eq!(class_tree(&graph), drawn);
    println!("the class tree: the same {} facts", drawn.len());
    Ok(())
}

#[test]
fn runs() -> Result<(), Refusal> {
    main()
}
