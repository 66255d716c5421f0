//! The start call: a container is to poll a port that no other polls. `polls` is exclusive, so the graph
//! itself refuses a second poller, whoever asks and by whatever property under `polls`. All consequences are
//! in the graph, so one look-up then finds the first.

use vimelosa_host::{Graph, Range, Refusal, Ticket};

const CONTAINER: u8 = 2;
const PORT: u8 = 3;
const POLLS: u8 = 10;
const POLLS_FAST: u8 = 11;
const READS: u8 = 12;
const PUMP_DRIVER: u8 = 20;
const VALVE_DRIVER: u8 = 21;
const MIXER_DRIVER: u8 = 22;
const PORT_A: u8 = 30;
const PORT_B: u8 = 31;

fn plant() -> Result<Graph, Refusal> {
    let mut graph = Graph::fresh();
    let tickets = [
        Ticket::insert_property(POLLS, CONTAINER, Range::class(PORT)?),
        Ticket::insert_property(POLLS_FAST, CONTAINER, Range::class(PORT)?),
        Ticket::insert_subproperty(POLLS_FAST, POLLS),
        Ticket::insert_exclusive(POLLS),
        Ticket::insert_value(PUMP_DRIVER, PORT_A, POLLS_FAST),
        Ticket::insert_member(PORT_B, PORT),
    ];
    for ticket in tickets {
        graph.apply(ticket)?;
    }
    Ok(graph)
}

/// Starts a container on a port. Answers the one that polls it already: none if it started.
fn start(graph: &mut Graph, container: u8, port: u8) -> Result<Option<u8>, Refusal> {
    let outcome = graph.apply(Ticket::insert_value(container, port, POLLS));
    let poller = graph.holders_of(port, POLLS).next();
    match (outcome, poller) {
        (Err(Refusal::Clashing), Some(poller)) => Ok(Some(poller)),
        (outcome, _) => outcome.map(|_| None),
    }
}

/// A ticket that would give a port a second poller: refusal 10, and nothing changes.
fn refuse(graph: &mut Graph, ticket: Ticket) {
    let before = graph.clone();
    let refusal = graph.apply(ticket).expect_err("the port has a poller");
    println!("{ticket}: {refusal}");
    assert_eq!((refusal, refusal.number()), (Refusal::Clashing, 10));
    assert_eq!(*graph, before);
}

fn main() -> Result<(), Refusal> {
    let mut graph = plant()?;
    let poller = start(&mut graph, MIXER_DRIVER, PORT_A)?.expect("a container polls the port");
    println!("container {MIXER_DRIVER} on port {PORT_A}: not started, container {poller} polls it");
    assert_eq!(poller, PUMP_DRIVER);
    assert_eq!(graph, plant()?);

    assert_eq!(start(&mut graph, MIXER_DRIVER, PORT_B)?, None);
    println!("container {MIXER_DRIVER} on port {PORT_B}: started");
    assert!(graph.holders_of(PORT_B, POLLS).eq([MIXER_DRIVER]));

    // Nor is there another way to a second poller: by a property under `polls`, or by one that comes under it
    // when its values stand.
    refuse(&mut graph, Ticket::insert_value(VALVE_DRIVER, PORT_B, POLLS_FAST));
    graph.apply(Ticket::insert_property(READS, CONTAINER, Range::class(PORT)?))?;
    graph.apply(Ticket::insert_value(VALVE_DRIVER, PORT_B, READS))?;
    refuse(&mut graph, Ticket::insert_subproperty(READS, POLLS));
    Ok(())
}

#[test]
fn runs() -> Result<(), Refusal> {
    main()
}
