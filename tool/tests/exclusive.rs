//! Exclusive properties: what is said of a value that two individuals would have for one, and that nothing of
//! the ticket stays; of a property that is not there; and how they are shown.

mod folder;

use folder::{Folder, Ran};

/// Both ways to run a list.
const OPTIONS: [&[&str]; 2] = [&[], &["--all-or-nothing"]];

const CLASH: &str = "refusal 10: The ticket clashes with what the graph holds.";

const UNKNOWN: &str = "refusal 9: The ticket uses a property that the graph does not have.";

/// Runs a list of tickets on the plant, in which serialNumber is exclusive and P7 has KX-4711 for it.
fn apply(folder: &Folder, tickets: &str, options: &[&str]) -> Ran {
    folder.write("a.tickets", tickets);
    folder.run(&[&["apply", "plant.img", "--file", "a.tickets"], options].concat())
}

/// The last ticket is the first refused; after its refusal comes the sentence, or none.
fn says(tickets: &str, refusal: &str, sentence: Option<&str>) {
    let line = tickets.lines().count();
    let words = tickets.lines().last().unwrap();
    let more = sentence.map(|sentence| format!("  {sentence}\n")).unwrap_or_default();
    let count = if line == 1 { "1 ticket: ".to_owned() } else { format!("{line} tickets: ") };
    let said = format!("line {line}: {words}: {refusal}\n{more}{count}");
    for options in OPTIONS {
        let ran = apply(&Folder::with_plant(), tickets, options);
        assert_eq!((ran.status, ran.stderr.as_str()), (1, ""), "{ran:?}");
        assert!(ran.stdout.starts_with(&said), "{said:?} is not the start of {ran:?}");
    }
}

/// By the property itself, by one under it, by its id, and after tickets of the same list.
#[test]
fn who_has_the_value_already() {
    let has = "serialNumber is exclusive, and P7 has KX-4711 for it already.";
    says("insert value P8 KX-4711 serialNumber\n", CLASH, Some(has));
    says("insert value new KX-4711 serialNumber\n", CLASH, Some(has));
    says("insert value P8 34 23\n", CLASH, Some(has));
    let under = "insert property plateNumber Machine Literal\ninsert subproperty plateNumber serialNumber\n";
    says(
        &format!("{under}insert value P8 KX-4711 plateNumber\n"),
        CLASH,
        Some("plateNumber is under serialNumber, which is exclusive, and P7 has KX-4711 for it already."),
    );
    let other = "insert value P8 KX-4712 serialNumber\ninsert value M1 KX-4712 serialNumber\n";
    says(other, CLASH, Some("serialNumber is exclusive, and P8 has KX-4712 for it already."));
    let made = "insert exclusive feeds\ninsert value P7 R1 feeds\n";
    says(made, CLASH, Some("feeds is exclusive, and P8 has R1 for it already."));
}

#[test]
fn who_has_the_value_both() {
    says("insert exclusive connectedTo\n", CLASH, Some("P8 and V12 both have R1 for it."));
    says(
        "insert value M2 P7 drives\ninsert exclusive drives\n",
        CLASH,
        Some("M1 and M2 both have P7 for it."),
    );
}

/// By a link, where one has the value for the lower property and one for the upper, or both for the lower.
#[test]
fn who_would_have_the_value_both() {
    let property = "insert property plateNumber Machine Literal\n";
    let link = "insert subproperty plateNumber serialNumber\n";
    let one = "insert value P8 KX-4711 plateNumber\n";
    let would = "serialNumber is exclusive, and P8 and P7 would both have KX-4711 for it.";
    says(&format!("{property}{one}{link}"), CLASH, Some(would));
    let two = "insert value P8 N1 plateNumber\ninsert value M1 N1 plateNumber\n";
    let would = "serialNumber is exclusive, and P8 and M1 would both have N1 for it.";
    says(&format!("{property}{two}{link}"), CLASH, Some(would));
}

/// A clash for another reason is not told so.
#[test]
fn another_clash() {
    says("insert value P7 P8 serialNumber\n", CLASH, None);
    says("insert value Pump KX-4712 serialNumber\n", CLASH, None);
    says("insert subproperty serialNumber connectedTo\n", CLASH, None);
    says("insert subproperty connectedTo feeds\n", CLASH, None);
    says("insert class P7\n", CLASH, None);
    // It is no longer exclusive.
    let freed = "delete exclusive serialNumber\ninsert value P8 KX-4711 serialNumber\n\
                 insert exclusive ratedPower\ninsert value P8 P7 serialNumber\n";
    says(freed, CLASH, None);
}

#[test]
fn unknown_property() {
    let near = Some("There is no property serialNmuber; the nearest is serialNumber.");
    says("insert exclusive serialNmuber\n", UNKNOWN, near);
    says("insert value P8 N1 serialNmuber\n", UNKNOWN, near);
    says("insert subproperty serialNmuber serialNumber\n", UNKNOWN, near);
    says("insert subproperty serialNumber serialNmuber\n", UNKNOWN, near);
    let none = Some("There is no property guards; `insert property guards DOMAIN RANGE` makes it.");
    says("insert exclusive guards\n", UNKNOWN, none);
    says("insert exclusive Pump\n", UNKNOWN, Some("Pump is a class, not a property."));
    says("insert exclusive P7\n", UNKNOWN, Some("P7 is an individual, not a property."));
    says("insert exclusive KX-4711\n", UNKNOWN, Some("KX-4711 is a literal, not a property."));
    // With the property it is no longer exclusive either.
    let deleted = "delete property serialNumber\ninsert exclusive serialNumber\n";
    let gone = "There is no property serialNumber; `insert property serialNumber DOMAIN RANGE` makes it.";
    says(deleted, UNKNOWN, Some(gone));
}

/// A later line that makes the property is told, in both ways to run a list.
#[test]
fn property_made_later() {
    let tickets = "insert exclusive guards\n\n# late\ninsert property guards Machine Hall\n";
    for options in OPTIONS {
        let ran = apply(&Folder::with_plant(), tickets, options);
        let said = format!(
            "line 1: insert exclusive guards: {UNKNOWN}\n  Line 4 makes guards: put it before this one.\n"
        );
        assert!(ran.status == 1 && ran.stdout.starts_with(&said), "{ran:?}");
    }
}

/// The files are byte for byte as before, and the name of the refused ticket is not kept.
#[test]
fn second_holder_leaves_the_files() {
    let folder = Folder::with_plant();
    folder.write("a.tickets", "insert value new KX-4711 serialNumber\n");
    let before = folder.files();
    for options in OPTIONS {
        let ran = apply(&folder, "insert value new KX-4711 serialNumber\n", options);
        assert!(ran.status == 1 && !ran.stdout.contains("new name"), "{ran:?}");
        assert!(folder.files() == before);
    }
}

/// Inserted and deleted it is one fact; a text of N-Triples has it; `show` says so.
#[test]
fn exclusive_in_all_commands() {
    let folder = Folder::with_plant();
    let drives = |operation: &str| folder.run(&["apply", "plant.img", operation, "exclusive", "drives"]);
    assert!(drives("insert").stdout.ends_with("1 fact added, 0 removed\n"));
    assert!(drives("insert").stdout.ends_with("0 facts added, 0 removed\n"));
    let shown = folder.run(&["show", "plant.img"]).stdout;
    assert!(shown.contains("drives        Motor -> Machine        exclusive\n"), "{shown}");
    assert_eq!(shown.matches("exclusive").count(), 2);
    let facts = folder.run(&["facts", "plant.img", "--kind", "exclusive"]).stdout;
    assert_eq!(facts, "exclusive drives\nexclusive serialNumber\n");
    assert!(folder.run(&["stat", "plant.img"]).stdout.contains("exclusive    2\n"));

    let text = folder.run(&["export", "plant.img", "-o", "plant.nt"]);
    assert_eq!((text.status, folder.text("plant.nt").matches("<urn:mark:excl>").count()), (0, 2));
    assert_eq!(folder.run(&["import", "plant.nt", "copy.img"]).status, 0);
    assert_eq!(folder.read("copy.img"), folder.read("plant.img"));
    assert!(drives("delete").stdout.ends_with("0 facts added, 1 removed\n"));
    let diff = folder.run(&["diff", "plant.img", "copy.img"]).stdout;
    assert_eq!(diff, "+ exclusive drives\n");
}
