//! Names and their ids: what a new name takes, which names are kept, and files of names that cannot be read.

mod folder;

use folder::Folder;

fn fresh() -> Folder {
    let folder = Folder::new();
    assert_eq!(folder.run(&["new", "a.img"]).status, 0);
    folder
}

fn apply(folder: &Folder, tickets: &str, status: i32) -> String {
    folder.write("a.tickets", tickets);
    let ran = folder.run(&["apply", "a.img", "--file", "a.tickets"]);
    assert_eq!(ran.status, status, "{ran:?}");
    ran.stdout + &ran.stderr
}

/// The lowest id that neither the names, nor the graph, nor a number in the list has.
#[test]
fn new_names_take_the_lowest_free_id() {
    let folder = fresh();
    apply(&folder, "insert class 2\n", 0);
    folder.write("a.img.names", "3\tunused\n");
    apply(&folder, "insert subclass Pump Machine\ninsert class 4\ninsert class 7\n", 0);
    assert_eq!(folder.text("a.img.names"), "3\tunused\n5\tPump\n6\tMachine\n");
    assert!(folder.run(&["facts", "a.img", "--ids"]).stdout.contains("subclass 5 6\n"));
}

/// An id in the bytes of a ticket is given as much as a number is.
#[test]
fn new_names_leave_the_ids_of_bytes() {
    let folder = fresh();
    apply(&folder, "ticket 0103020000\ninsert class Pump\nticket 0105040500\n", 0);
    assert_eq!(folder.text("a.img.names"), "3\tPump\n");
}

/// What some editors put before UTF-8 is no part of the first line, in names and in tickets.
#[test]
fn byte_order_mark() {
    let folder = fresh();
    folder.write("a.img.names", "\u{feff}9\tPump\r\n");
    apply(&folder, "\u{feff}insert class Pump\r\ninsert class Tank\r\n", 0);
    assert_eq!(folder.text("a.img.names"), "\u{feff}9\tPump\r\n2\tTank\n");
    assert!(folder.run(&["facts", "a.img", "--ids"]).stdout.contains("class 9\n"));
}

/// Names of refused tickets, and of what the list itself deletes, are not kept; the others keep their ids.
#[test]
fn names_are_kept_if_their_ids_stand() {
    let folder = fresh();
    let tickets = "insert class Gone\ninsert value P7 T1 feeds\ninsert class Stays\ndelete class Gone\n";
    apply(&folder, tickets, 1);
    assert_eq!(folder.text("a.img.names"), "6\tStays\n");
    apply(&folder, "insert class Next\n", 0);
    assert_eq!(folder.text("a.img.names"), "6\tStays\n2\tNext\n");
}

/// What a person wrote into the file stays, and a line that does not end is ended.
#[test]
fn comments_stay() {
    let folder = fresh();
    folder.write("a.img.names", "# Hall 1\n\n9\tPump\r\n8\tMachine");
    apply(&folder, "insert subclass Pump Machine\ninsert class Tank\n", 0);
    assert_eq!(folder.text("a.img.names"), "# Hall 1\n\n9\tPump\r\n8\tMachine\n2\tTank\n");
}

/// Without new names the names file is not written, and without changes no file is.
#[test]
fn files_are_written_only_if_they_change() {
    use std::os::unix::fs::MetadataExt;
    let folder = fresh();
    apply(&folder, "insert subclass Pump Machine\n", 0);
    let file = |name: &str| std::fs::metadata(folder.join(name)).unwrap().ino();
    let (image, names) = (file("a.img"), file("a.img.names"));
    apply(&folder, "insert subclass Pump Machine\ndelete class 77\n", 0);
    assert_eq!((file("a.img"), file("a.img.names")), (image, names));
    apply(&folder, "insert subclass 50 Machine\n", 0);
    assert_eq!(file("a.img.names"), names);
    assert_ne!(file("a.img"), image);
}

#[test]
fn all_ids_taken() {
    let folder = fresh();
    let tickets: String = (0..255).map(|place| format!("insert literal L{place}\n")).collect();
    let said = apply(&folder, &tickets, 2);
    assert!(said.contains("No id is free") && said.contains("line 255 of a.tickets"), "{said}");
    apply(&folder, &tickets.lines().take(254).map(|line| format!("{line}\n")).collect::<String>(), 0);
    assert!(folder.run(&["stat", "a.img"]).stdout.contains("ids          254 of 254\n"));
}

/// A names file with a fault is refused by every command that reads it, with the line's number.
#[test]
fn faulty_names_files() {
    let folder = fresh();
    let faults = [
        ("2\tPump\n3\tTank\n2\tMotor\n", "line 3", "Id 2 has a name already"),
        ("2\tPump\n# again\n\n3\tPump\n", "line 4", "The name Pump has an id already"),
        ("0\tThing\n", "line 1", "Id 0 has a name already"),
        ("1\tText\n", "line 1", "Id 1 has a name already"),
        ("2\tResource\n", "line 1", "The name Resource has an id already"),
        ("2 Pump\n", "line 1", "The line is not an id, a tab and a name"),
        ("300\tPump\n", "line 1", "The id is not a number from 0 to 255"),
        ("2\tfeed pump\n", "line 1", "A name has 1 to 255 bytes"),
        ("2\t42\n", "line 1", "A name has 1 to 255 bytes"),
    ];
    for (text, line, reason) in faults {
        folder.write("a.img.names", text);
        for words in
            [vec!["show", "a.img"], vec!["stat", "a.img"], vec!["apply", "a.img", "insert", "class", "9"]]
        {
            let before = folder.files();
            let ran = folder.run(&words);
            assert_eq!(ran.status, 2, "{ran:?}");
            let said = format!("vimelosa: {reason}");
            assert!(ran.stderr.starts_with(&said) && ran.stderr.contains(line), "{text:?}: {ran:?}");
            assert_eq!(ran.stderr.lines().count(), 1);
            assert!(folder.files() == before);
        }
    }
    folder.write("a.img.names", b"2\tPump\n3\tK\xfchler\n");
    let ran = folder.run(&["show", "a.img"]);
    assert!(ran.status == 2 && ran.stderr.contains("line 2 of a.img.names"), "{ran:?}");
}

/// With ids the names are not read, so their faults do no harm.
#[test]
fn ids_need_no_names() {
    let folder = fresh();
    folder.write("a.img.names", "2 Pump\n");
    assert_eq!(folder.run(&["facts", "a.img", "--ids"]).stdout, "class 0\n");
    assert_eq!(folder.run(&["diff", "a.img", "a.img", "--ids", "--exit-code"]).status, 0);
    assert_eq!(folder.run(&["diff", "a.img", "a.img"]).status, 2);
}
