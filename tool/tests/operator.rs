//! Operators' tickets: what is said of one that is not for operators, and of the others in their lists, that
//! nothing of a refused one stays, and that the class tree stays whatever they are.

mod folder;

use folder::{Folder, Ran};

/// Both ways to run a list.
const OPTIONS: [&[&str]; 2] = [&["--operator"], &["--operator", "--all-or-nothing"]];

const REFUSAL: &str = "refusal 17: The ticket names a kind that is not for operators.";

const KINDS: &str = "Operators' tickets have these kinds: individual, literal, member, value.";

/// Kinds of facts that are not for operators.
const OTHERS: [&str; 7] = ["class", "property", "subclass", "subproperty", "domain", "range", "exclusive"];

/// Runs a list of tickets on the plant.
fn apply(folder: &Folder, tickets: &str, options: &[&str]) -> Ran {
    folder.write("a.tickets", tickets);
    folder.run(&[&["apply", "plant.img", "--file", "a.tickets"], options].concat())
}

/// The ticket on a line is the first refused, and the sentence, if there is one, is said of it.
fn says(line: usize, tickets: &str, refusal: &str, sentence: Option<&str>) {
    let words = tickets.lines().nth(line - 1).unwrap();
    let more = sentence.map(|sentence| format!("  {sentence}\n")).unwrap_or_default();
    let said = format!("line {line}: {words}: {refusal}\n{more}");
    for options in OPTIONS {
        let ran = apply(&Folder::with_plant(), tickets, options);
        assert_eq!((ran.status, ran.stderr.as_str()), (1, ""), "{ran:?}");
        assert!(ran.stdout.starts_with(&said), "{said:?} is not the start of {ran:?}");
        let rest = &ran.stdout[said.len()..];
        assert!(rest.starts_with(|first: char| !first.is_whitespace()), "more than {said:?} in {ran:?}");
    }
}

/// The facts of the kinds that are not for operators.
fn class_tree(folder: &Folder) -> String {
    OTHERS.map(|kind| folder.run(&["facts", "plant.img", "--kind", kind]).stdout).concat()
}

/// Insertions and deletions of every other kind, of what is there and what is not.
#[test]
fn kinds_for_operators_are_told() {
    let tickets = [
        "insert class Crane",
        "insert class Pump",
        "delete class Pump",
        "insert property load Machine Literal",
        "delete property feeds",
        "insert subclass Crane Machine",
        "delete subclass Pump Machine",
        "insert subproperty drives connectedTo",
        "delete subproperty feeds connectedTo",
        "insert exclusive feeds",
        "delete exclusive serialNumber",
        "ticket 0101c80000",
    ];
    for ticket in tickets {
        says(1, &format!("{ticket}\n"), REFUSAL, Some(KINDS));
    }
    says(2, "insert member P9 Pump\ndelete class Pump\n", REFUSAL, Some(KINDS));
}

/// It comes after 7 and before what the graph says: a class that is guarded, a link that clashes.
#[test]
fn place_among_the_refusals() {
    let unused = "refusal 7: An unused byte is not 0, or the mark Literal stands out of place.";
    says(1, "ticket 0101c80100\n", unused, None);
    says(1, "delete class Resource\n", REFUSAL, Some(KINDS));
    says(1, "insert subclass Machine Pump\n", REFUSAL, Some(KINDS));
    says(1, "insert exclusive drains\n", REFUSAL, Some(KINDS));
    let guarded = "refusal 8: A ticket cannot delete Resource, or a link or a membership to it.";
    says(1, "delete member P7 Resource\n", guarded, None);
}

/// What is said of a class, a property or a holder is by what operators' tickets leave: none of them makes a
/// class or a property.
#[test]
fn other_refusals_in_an_operators_list() {
    let unknown_class = "refusal 16: The ticket names a class that the graph does not have.";
    let near = Some("There is no class Pmup; the nearest is Pump.");
    says(1, "insert member P9 Pmup\n", unknown_class, near);
    let none = "There is no class Crane; `insert class Crane`, without --operator, makes it.";
    says(1, "insert member C1 Crane\ninsert class Crane\n", unknown_class, Some(none));
    let other = Some("C1 is an individual, not a class.");
    says(2, "insert individual C1\ninsert member C2 C1\n", unknown_class, other);

    let unknown_property = "refusal 9: The ticket uses a property that the graph does not have.";
    let near = Some("There is no property fedes; the nearest is feeds.");
    says(1, "insert value P8 T1 fedes\n", unknown_property, near);
    let none =
        "There is no property load; `insert property load DOMAIN RANGE`, without --operator, makes it.";
    let late = "insert value P7 5t load\ninsert property load Machine Literal\n";
    says(1, late, unknown_property, Some(none));

    let clash = "refusal 10: The ticket clashes with what the graph holds.";
    let has = Some("serialNumber is exclusive, and M1 has KX-4712 for it already.");
    let two = "insert value M1 KX-4712 serialNumber\ninsert value M2 KX-4712 serialNumber\n";
    says(2, two, clash, has);
    says(1, "insert individual Pump\n", clash, None);
}

/// A refused ticket before them changes nothing for the later ones: serialNumber stays exclusive, and P7 has
/// the number still.
#[test]
fn later_tickets_find_what_the_refused_left() {
    let tickets = "delete exclusive serialNumber\ndelete property serialNumber\ndelete class Equipment\n\
                   insert value P8 KX-4711 serialNumber\n";
    let ran = apply(&Folder::with_plant(), tickets, &["--operator"]);
    let said = "line 4: insert value P8 KX-4711 serialNumber: refusal 10: The ticket clashes with what the \
                graph holds.\n  serialNumber is exclusive, and P7 has KX-4711 for it already.\n\
                4 tickets: 0 accepted, 4 refused; 0 facts added, 0 removed\n";
    assert!(ran.status == 1 && ran.stdout.ends_with(said), "{ran:?}");
}

/// What is accepted is what is accepted without the option.
#[test]
fn devices_and_readings_as_without_the_option() {
    let tickets = "insert member P9 GearPump\ninsert value P9 KX-4712 serialNumber\ninsert literal 7.5kW\n\
                   insert individual X1\ndelete member P8 Pump\ndelete value M1 5.5kW ratedPower\n\
                   delete literal KX-4711\ndelete individual V12\n";
    let [plain, own] = [&[][..], &["--operator"]].map(|options| {
        let folder = Folder::with_plant();
        let tree = class_tree(&folder);
        let ran = apply(&folder, tickets, options);
        assert_eq!((ran.status, class_tree(&folder)), (0, tree), "{ran:?}");
        (ran.stdout, folder.read("plant.img"), folder.text("plant.img.names"))
    });
    assert!(plain == own, "{} is not {}", plain.0, own.0);
}

/// The files are byte for byte as before, by one ticket, by a list, and where all are dropped.
#[test]
fn refused_tickets_leave_the_files() {
    let folder = Folder::with_plant();
    let tickets = "insert class Crane\ninsert member C1 Crane\ndelete class Pump\ninsert class Pump\n";
    folder.write("a.tickets", tickets);
    let before = folder.files();
    let one = folder.run(&["apply", "--operator", "plant.img", "insert", "subclass", "Crane", "Machine"]);
    assert!(one.status == 1 && one.stdout.contains(REFUSAL) && !one.stdout.contains("new name"), "{one:?}");
    assert!(folder.files() == before);
    for options in OPTIONS {
        let ran = apply(&folder, tickets, options);
        assert!(ran.status == 1 && !ran.stdout.contains("new name"), "{ran:?}");
        assert!(folder.files() == before);
    }
}

/// Beside accepted tickets no name of a refused one is kept, and the class tree stays.
#[test]
fn names_of_refused_tickets() {
    let folder = Folder::with_plant();
    let (names, tree) = (folder.text("plant.img.names"), class_tree(&folder));
    let ran = apply(&folder, "insert class Crane\ninsert member P9 Pump\n", &["--operator"]);
    assert!(ran.status == 1 && ran.stdout.ends_with("1 new name: P9\n"), "{ran:?}");
    assert_eq!(folder.text("plant.img.names"), names + "37\tP9\n");
    assert_eq!(class_tree(&folder), tree);
}
