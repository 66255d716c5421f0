//! Support: for each ticket of a plant's log, what it added and removed, or why it was refused; and of a
//! damaged image, which rule its graph breaks.

use vimelosa_host::{check_image, Change, Graph, Kind, Range, Refusal, Rule, Ticket};

const PUMP: u8 = 3;
const MACHINE: u8 = 2;
const FEEDS: u8 = 10;
const P1: u8 = 20;
const P2: u8 = 21;

/// One line of the report.
fn line(outcome: Result<Change, Refusal>) -> String {
    match outcome {
        Ok(Change { added, removed }) => format!("added {added}, removed {removed}"),
        Err(refusal) => refusal.to_string(),
    }
}

fn run_log() -> Result<Graph, Refusal> {
    let log = [
        (Ticket::insert_subclass(PUMP, MACHINE), "added 5, removed 0"),
        (Ticket::insert_property(FEEDS, PUMP, Range::class(PUMP)?), "added 3, removed 0"),
        (Ticket::insert_value(P1, P2, FEEDS), "added 9, removed 0"),
        (Ticket::delete_member(P2, MACHINE), "added 0, removed 3"),
        (Ticket::insert_subclass(MACHINE, PUMP), "refusal 10: The ticket clashes with what the graph holds."),
        (Ticket::delete_class(PUMP), "added 0, removed 7"),
    ];
    let mut graph = Graph::fresh();
    for (ticket, expected) in log {
        let report = line(graph.apply(ticket));
        println!("{ticket}: {report}");
        assert_eq!(report, expected);
    }
    Ok(graph)
}

/// The image with the id of its first individual changed to that of a class.
fn damaged(graph: &Graph) -> Vec<u8> {
    let mut image = graph.image().to_vec();
    let place = image.len() - Kind::ALL.iter().skip(2).map(|kind| graph.body(*kind).len()).sum::<usize>();
    image[place] = MACHINE;
    image
}

fn main() -> Result<(), Refusal> {
    let graph = run_log()?;
    assert_eq!(check_image(graph.image()), Ok(()));

    let refusal = check_image(&damaged(&graph)).expect_err("the image is damaged");
    println!("damaged image: {refusal}");
    assert_eq!(refusal, Refusal::Inconsistent { rule: Rule::R5 });
    Ok(())
}

#[test]
fn runs() -> Result<(), Refusal> {
    main()
}
