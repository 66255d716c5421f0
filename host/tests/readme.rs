//! README's program in Rust, run; README has its text.

use vimelosa_host::{Graph, Names, Refusal, Ticket};

type Outcome = Result<(), Box<dyn std::error::Error>>;

#[test]
fn readme_program_runs() -> Outcome {
    let (machine, pump, p7) = (2, 3, 4);
    let mut graph = Graph::fresh();
    graph.apply(Ticket::insert_class(machine))?;
    graph.apply(Ticket::insert_class(pump))?;

    // Members first, their class under another afterwards: one list, one call, an answer for each ticket.
    let answers = graph.apply_all(&[Ticket::insert_member(p7, pump), Ticket::insert_subclass(pump, machine)]);
    assert!(answers.iter().all(Result::is_ok));
    assert!(graph.members_of(machine).eq([p7]));

    // Two classes are never subclasses of each other, and a refused ticket changes nothing.
    assert_eq!(graph.apply(Ticket::insert_subclass(machine, pump)), Err(Refusal::Clashing));

    // With names for ids.
    let names: Names = "2\tMachine\n3\tPump\n4\tP7\n".parse()?;
    for fact in graph.all_facts() {
        println!("{}", names.show(fact)); // class Resource, class Machine, ...
    }
    Ok(())
}

/// The lines without what stands before them.
fn lines_of(text: &str) -> Vec<&str> {
    text.lines().map(str::trim).filter(|line| !line.is_empty()).collect()
}

#[test]
fn readme_has_this_program() {
    let between = |text: &'static str, start: &str, end: &str| {
        let rest = text.split(start).nth(1).unwrap_or_default();
        lines_of(rest.split(end).next().unwrap_or_default())
    };
    let shown = between(include_str!("../../README.md"), "```rust\n", "```");
    let run = between(include_str!("readme.rs"), "-> Outcome {\n", "    Ok(())\n");
    assert!(shown[0].starts_with("use vimelosa_host::"));
    assert_eq!(shown[1..], run);
}
