//! The installer: a package is a list of tickets and may be installed twice. A ticket whose facts are all
//! there is accepted and adds nothing. Of a package with a refused ticket nothing stays: so if it clashes
//! with the graph, and if the id of a class is misspelt, which brings no class to life.

use vimelosa_host::{Change, Graph, Range, Refusal, RefusedTicket, Ticket};

const MACHINE: u8 = 2;
const VALVE: u8 = 3;
const SERIAL_NUMBER: u8 = 10;
const PORT: u8 = 12;
const PRESS: u8 = 20;
const NUMBER_4711: u8 = 30;
const SERIAL_1: u8 = 40;
const SERIAL_2: u8 = 41;

/// PORT with its digits exchanged.
const MISSPELT: u8 = 21;

fn install_twice(graph: &mut Graph) -> Result<(), RefusedTicket> {
    let package = [
        Ticket::insert_class(MACHINE),
        Ticket::insert_class(PORT),
        Ticket::insert_property(SERIAL_NUMBER, MACHINE, Range::Literal),
        Ticket::insert_value(PRESS, NUMBER_4711, SERIAL_NUMBER),
    ];
    let first = graph.apply_all_or_none(&package)?;
    let installed = graph.clone();
    let repeat = graph.apply_all_or_none(&package)?;
    println!("first: {} facts added, repeat: {}", first.added, repeat.added);
    assert_eq!((first, repeat), (Change { added: 12, removed: 0 }, Change::default()));
    assert_eq!(*graph, installed);
    Ok(())
}

/// A package that must not be installed: its second ticket is refused, and nothing of it stays.
fn refuse(graph: &mut Graph, package: [Ticket; 2], refusal: Refusal) {
    let before = graph.clone();
    let refused = graph.apply_all_or_none(&package).expect_err("the second ticket is refused");
    assert_eq!(refused, RefusedTicket { place: 1, refusal });
    assert_eq!(*graph, before);
    println!("not installed, for {}: {refusal}", package[refused.place]);
}

fn main() -> Result<(), RefusedTicket> {
    let mut graph = Graph::fresh();
    install_twice(&mut graph)?;

    let clashing = [Ticket::insert_class(VALVE), Ticket::insert_individual(MACHINE)];
    refuse(&mut graph, clashing, Refusal::Clashing);

    let misspelt = [Ticket::insert_member(SERIAL_1, PORT), Ticket::insert_member(SERIAL_2, MISSPELT)];
    refuse(&mut graph, misspelt, Refusal::UnknownClass);
    let corrected = [Ticket::insert_member(SERIAL_1, PORT), Ticket::insert_member(SERIAL_2, PORT)];
    let change = graph.apply_all_or_none(&corrected)?;
    println!("corrected: {} facts added", change.added);
    assert!(graph.members_of(PORT).eq([SERIAL_1, SERIAL_2]));
    Ok(())
}

#[test]
fn runs() -> Result<(), RefusedTicket> {
    main()
}
