//! Backup: the image is saved, loaded, and is the same graph; later the facts that came and went since are
//! told. An image that lost its end is refused.

use std::error::Error;
use std::{env, fs, process};
use vimelosa_host::{Diff, Fact, Graph, Refusal, Ticket};

const MACHINE: u8 = 2;
const PUMP: u8 = 3;
const P1: u8 = 20;

fn main() -> Result<(), Box<dyn Error>> {
    let mut graph = Graph::fresh();
    graph.apply(Ticket::insert_subclass(PUMP, MACHINE))?;
    graph.apply(Ticket::insert_member(P1, PUMP))?;

    let file = env::temp_dir().join(format!("vimelosa-backup-{}.image", process::id()));
    fs::write(&file, graph.image())?;
    let saved = fs::read(&file)?;
    fs::remove_file(&file)?;

    let loaded = Graph::load(&saved)?;
    assert!(loaded.diff(&graph).is_empty());
    println!("{} bytes saved and loaded, {} facts", saved.len(), loaded.count_facts());

    graph.apply(Ticket::delete_member(P1, PUMP))?;
    graph.apply(Ticket::insert_literal(30))?;
    let Diff { only_here, only_there } = loaded.diff(&graph);
    println!("gone since: {}", in_words(&only_here));
    println!("come since: {}", in_words(&only_there));
    assert_eq!(only_here, [Fact::Member { individual: P1, class: PUMP }]);
    assert_eq!(only_there, [Fact::Literal(30)]);

    let cut_off = Graph::load(&saved[..saved.len() - 1]);
    assert_eq!(cut_off, Err(Refusal::Malformed));
    println!("cut off by a byte: {}", Refusal::Malformed);
    Ok(())
}

fn in_words(facts: &[Fact]) -> String {
    facts.iter().map(Fact::to_string).collect::<Vec<_>>().join(", ")
}

#[test]
fn runs() -> Result<(), Box<dyn Error>> {
    main()
}
