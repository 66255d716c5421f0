//! The plant editor: members are entered as soon as their classes stand, the classes are linked late, and
//! that a property is exclusive is said last. The order does not matter; every member is in every class above
//! its own, and the graph is the same as if the tree had been drawn first, which makes the classes too. A
//! class is deleted only once everything that goes with it was shown, and if nothing has changed that since.
//! The plant's people speak of names, not of ids.

use std::error::Error;
use vimelosa_host::{Graph, Names, Preview, Refusal};

const NAMES: &str = "2\tequipment\n3\tdrive\n4\tmotor\n10\tturns\n20\tm1\n21\tm2\n22\tfan\n";
const CLASSES: [&str; 2] = ["insert class drive", "insert class motor"];
const MEMBERS: [&str; 2] = ["insert member m1 motor", "insert member m2 drive"];
const LINKS: [&str; 2] = ["insert subclass motor drive", "insert subclass drive equipment"];
const PROPERTY: [&str; 1] = ["insert property turns drive equipment"];
const VALUE: [&str; 1] = ["insert value m1 fan turns"];

/// No two drives turn one machine.
const EXCLUSIVE: [&str; 1] = ["insert exclusive turns"];

fn graph_of(names: &Names, lines: &[&[&str]]) -> Result<Graph, Box<dyn Error>> {
    let mut graph = Graph::fresh();
    for line in lines.concat() {
        let ticket = names.read_ticket(line)?;
        let change = graph.apply(ticket)?;
        println!("{}: {} facts added", names.show(ticket), change.added);
    }
    Ok(graph)
}

/// The names of the members of a class.
fn members<'a>(graph: &Graph, names: &'a Names, class: &str) -> Vec<&'a str> {
    let class = names.id_of(class).expect("the class has a name");
    graph.members_of(class).filter_map(|member| names.name_of(member)).collect()
}

/// What would go, fact by fact, for somebody to agree to.
fn show(preview: &Preview, names: &Names) {
    println!("{}: {} facts would go", names.show(preview.ticket()), preview.change().removed);
    for fact in preview.removed() {
        println!("  {}", names.show(*fact));
    }
}

/// Shows what goes with the drives before they go. Before the first look is agreed to, an operator puts the
/// fan among them: it would leave them unseen, so it takes a second look.
fn delete_drives(graph: &mut Graph, names: &Names) -> Result<(), Box<dyn Error>> {
    let deletion = names.read_ticket("delete class drive")?;
    let first = graph.preview(deletion)?;
    show(&first, names);
    let entered = names.read_ticket("insert member fan drive")?;
    graph.apply_as_operator(entered)?;
    println!("{}: entered meanwhile", names.show(entered));
    assert_eq!(first.commit(graph), Err(Refusal::OutOfDate));
    println!("{}: {}", names.show(deletion), Refusal::OutOfDate);

    let second = graph.preview(deletion)?;
    show(&second, names);
    assert_eq!(second.change().removed, first.change().removed + 1);
    assert_eq!(second.commit(graph), Ok(second.change()));
    Ok(())
}

fn main() -> Result<(), Box<dyn Error>> {
    let names: Names = NAMES.parse()?;
    let mut late = graph_of(&names, &[&CLASSES, &MEMBERS, &PROPERTY, &VALUE, &LINKS, &EXCLUSIVE])?;
    let early = graph_of(&names, &[&LINKS, &PROPERTY, &EXCLUSIVE, &MEMBERS, &VALUE])?;
    assert_eq!(late, early);
    println!("drawn late or early: the same {} facts", late.count_facts());

    assert_eq!(members(&late, &names, "equipment"), ["m1", "m2", "fan"]);
    assert_eq!(members(&late, &names, "motor"), ["m1"]);

    let second = names.read_ticket("insert value m2 fan turns")?;
    assert_eq!(late.apply(second), Err(Refusal::Clashing));
    println!("{}: {}", names.show(second), Refusal::Clashing);

    // The drives and what turns what are gone; their members are equipment still, and the motor is a motor.
    delete_drives(&mut late, &names)?;
    assert!(members(&late, &names, "drive").is_empty());
    assert_eq!(members(&late, &names, "equipment"), ["m1", "m2", "fan"]);
    assert_eq!(members(&late, &names, "motor"), ["m1"]);
    Ok(())
}

#[test]
fn runs() -> Result<(), Box<dyn Error>> {
    main()
}
