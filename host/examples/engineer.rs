//! Plant engineer: the graph goes to an N-Triples tool as a text and comes back with its lines sorted and one
//! device more. A text with a line of another form is refused.

use std::error::Error;
use vimelosa_host::{Fact, Graph, Refusal, Ticket};

const MACHINE: u8 = 2;
const PUMP: u8 = 3;
const P7: u8 = 20;
const P8: u8 = 21;

fn main() -> Result<(), Box<dyn Error>> {
    let mut graph = Graph::fresh();
    graph.apply(Ticket::insert_subclass(PUMP, MACHINE))?;
    graph.apply(Ticket::insert_member(P7, PUMP))?;
    let text = graph.to_triples();
    println!("{} facts written as {} lines", graph.count_facts(), text.lines().count());

    // P8 is in every class that P7 is in.
    let of_p7 = text.lines().filter(|line| line.starts_with("<urn:id:20> "));
    let of_p8: Vec<String> = of_p7.map(|line| line.replace("<urn:id:20>", "<urn:id:21>")).collect();
    let mut lines: Vec<&str> = text.lines().chain(of_p8.iter().map(String::as_str)).collect();
    lines.sort_unstable();
    let changed = lines.join("\n") + "\n";

    let read = Graph::from_triples(changed.as_bytes())?;
    println!("read with {} facts more", graph.diff(&read).only_there.len());
    assert!(read.has(Fact::Individual(P8)) && read.has(Fact::Member { individual: P8, class: MACHINE }));

    let with_comment = format!("# from the tool\n{changed}");
    assert_eq!(Graph::from_triples(with_comment.as_bytes()), Err(Refusal::OutsideProfile));
    println!("with a comment: {}", Refusal::OutsideProfile);
    Ok(())
}

#[test]
fn runs() -> Result<(), Box<dyn Error>> {
    main()
}
