//! A member of a class that the graph does not have: what is said of it, and that nothing of its ticket
//! stays.

mod folder;

use folder::{Folder, Ran};

/// Both ways to run a list.
const OPTIONS: [&[&str]; 2] = [&[], &["--all-or-nothing"]];

const REFUSAL: &str = "refusal 16: The ticket names a class that the graph does not have.";

/// Runs a list of tickets on the plant.
fn apply(folder: &Folder, tickets: &str, options: &[&str]) -> Ran {
    folder.write("a.tickets", tickets);
    folder.run(&[&["apply", "plant.img", "--file", "a.tickets"], options].concat())
}

/// The ticket on a line is the first refused, and the sentence is said of it.
fn says(line: usize, tickets: &str, sentence: &str) {
    let words = tickets.lines().nth(line - 1).unwrap();
    let said = format!("line {line}: {words}: {REFUSAL}\n  {sentence}\n");
    for options in OPTIONS {
        let ran = apply(&Folder::with_plant(), tickets, options);
        assert_eq!((ran.status, ran.stderr.as_str()), (1, ""), "{ran:?}");
        assert!(ran.stdout.starts_with(&said), "{said:?} is not the start of {ran:?}");
    }
}

#[test]
fn nearest_name() {
    says(1, "insert member P9 Pmup\n", "There is no class Pmup; the nearest is Pump.");
    says(1, "insert member P9 gearpump\n", "There is no class gearpump; the nearest is GearPump.");
    says(1, "insert member P9 Resorce\n", "There is no class Resorce; the nearest is Resource.");
    // Of two as near that of the lower id.
    says(2, "insert class Hull\ninsert member H2 Hell\n", "There is no class Hell; the nearest is Hall.");
    // Classes of the list, before or after.
    says(2, "insert class Crane\ninsert member C1 Crnae\n", "There is no class Crnae; the nearest is Crane.");
    says(1, "insert member C1 Crnae\ninsert class Crane\n", "There is no class Crnae; the nearest is Crane.");
    // A class that goes afterwards.
    says(1, "insert member H2 Hlal\ndelete class Hall\n", "There is no class Hlal; the nearest is Hall.");
}

#[test]
fn no_name_is_near() {
    says(1, "insert member C1 Crane\n", "There is no class Crane; `insert class Crane` makes it.");
    // `feeds` is near, but no class.
    says(1, "insert member C1 feed\n", "There is no class feed; `insert class feed` makes it.");
    says(1, "insert member C1 200\n", "There is no class 200; `insert class 200` makes it.");
    says(1, "ticket 0109c8c900\n", "There is no class 201; `insert class 201` makes it.");
    // Its name stays where a class is deleted.
    let deleted = "delete class Hall\ninsert member H2 Hall\n";
    says(2, deleted, "There is no class Hall; `insert class Hall` makes it.");
}

#[test]
fn another_thing() {
    says(1, "insert member P9 P7\n", "P7 is an individual, not a class.");
    says(1, "insert member P9 feeds\n", "feeds is a property, not a class.");
    says(1, "insert member P9 5.5kW\n", "5.5kW is a literal, not a class.");
    says(1, "insert member Pump P7\n", "P7 is an individual, not a class.");
}

/// What counts is what the word names where the ticket stands, then what it comes to name.
#[test]
fn another_thing_for_a_time() {
    let individual = "P7 is an individual, not a class.";
    says(1, "insert member P9 P7\ndelete individual P7\n", individual);
    says(1, "insert member P9 P7\ndelete individual P7\ninsert class P7\n", individual);
    let freed = "delete individual P7\ninsert member P9 P7\ninsert class P7\n";
    says(2, freed, "Line 3 makes P7: put it before this one.");
    says(1, "insert member C1 Crane\ninsert individual Crane\n", "Crane is an individual, not a class.");
}

/// Each ticket that makes a class is told if it comes too late, by its line in the file.
#[test]
fn class_made_later() {
    let makers = [
        "insert class Crane",
        "insert subclass Crane Machine",
        "insert subclass BridgeCrane Crane",
        "insert property lifts Crane Equipment",
        "insert property liftedBy Equipment Crane",
        "insert property load Crane Literal",
        "ticket 0101c80000\ninsert subclass Crane 200",
    ];
    for maker in makers {
        let tickets = format!("insert member C1 Crane\n\n# late\n{maker}\ninsert class Crane\n");
        let line = 3 + maker.lines().count();
        says(1, &tickets, &format!("Line {line} makes Crane: put it before this one."));
    }
}

/// A ticket makes no class if it is refused, if it comes before, or if it deletes.
#[test]
fn class_not_made_later() {
    let sentence = "There is no class Crane; `insert class Crane` makes it.";
    let others = [
        "insert subclass Crane Crane",
        "insert property feeds Crane Vessel",
        "insert member C2 Crane",
        "delete class 200",
    ];
    for other in others {
        says(1, &format!("insert member C1 Crane\n{other}\n"), sentence);
    }
    says(3, "insert class Crane\ndelete class Crane\ninsert member C1 Crane\n", sentence);
}

/// The files are byte for byte as before, by one ticket, by a list, and where all are dropped.
#[test]
fn misspelt_class_leaves_the_files() {
    let folder = Folder::with_plant();
    let tickets = "insert member P9 Pmup\ninsert member P10 Pmup\ninsert member T2 Tnak\n";
    folder.write("a.tickets", tickets);
    let before = folder.files();
    let one = folder.run(&["apply", "plant.img", "insert", "member", "P9", "Pmup"]);
    assert!(one.status == 1 && one.stdout.contains(REFUSAL), "{one:?}");
    assert!(folder.files() == before);
    for options in OPTIONS {
        let ran = apply(&folder, tickets, options);
        assert!(ran.status == 1 && !ran.stdout.contains("new name"), "{ran:?}");
        assert!(folder.files() == before);
    }
}

/// Beside accepted tickets nothing of the refused stays: no fact, and no name that they alone have.
#[test]
fn names_of_refused_tickets() {
    let folder = Folder::with_plant();
    let names = folder.text("plant.img.names");
    let ran = apply(&folder, "insert member P9 Pmup\ninsert member P10 Pump\n", &[]);
    assert!(ran.status == 1 && ran.stdout.ends_with("1 new name: P10\n"), "{ran:?}");
    assert_eq!(folder.text("plant.img.names"), names + "38\tP10\n");
    let facts = folder.run(&["facts", "plant.img"]).stdout;
    assert!(facts.contains("member P10 Machine\n") && !facts.contains("36") && !facts.contains("37"));
}
