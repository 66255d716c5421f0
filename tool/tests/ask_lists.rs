//! Looking before agreeing to a list: each ticket on what those before it left, as they were agreed to.

mod asking;
mod folder;

use asking::{ask, END, ENDED, NOT_AGREED, QUESTION};
use folder::Folder;

/// The end of the input leaves out what comes after it, unseen; what was agreed to before it stays.
#[test]
fn end_of_input() {
    let folder = Folder::with_plant();
    let tickets = "insert literal 7.5kW\ndelete literal KX-4711\ninsert class Crane\ninsert member X Crnae\n";
    let ran = ask(&folder, tickets, "", &format!("y\n{END}"));
    let shown = format!(
        "line 1: insert literal 7.5kW: would add 1 fact\n+ literal 7.5kW\n{QUESTION}\
         line 2: delete literal KX-4711: would remove 2 facts\n- literal KX-4711\n\
         - value P7 KX-4711 serialNumber\n{QUESTION}{ENDED}\
         4 tickets: 1 accepted, 0 refused, 3 not agreed; 1 fact added, 0 removed\n1 new name: 7.5kW\n"
    );
    assert_eq!((ran.status, ran.stdout), (1, shown));
    assert!(folder.run(&["facts", "plant.img", "--kind", "literal"]).stdout.ends_with("literal 7.5kW\n"));
}

/// Each ticket is shown by what the ones before it left, as they were agreed to.
#[test]
fn tickets_on_what_others_left() {
    let folder = Folder::with_plant();
    let before = folder.files();
    let tickets = "insert class Crane\ninsert member C1 Crane\ndelete class Crane\ndelete individual C1\n";
    let [class, member, goes] = [
        "line 1: insert class Crane: would add 2 facts\n+ class Crane\n+ subclass Crane Resource\n",
        "line 2: insert member C1 Crane: would add 3 facts\n+ individual C1\n+ member C1 Resource\n\
         + member C1 Crane\n",
        "line 3: delete class Crane: would remove 3 facts\n- class Crane\n- subclass Crane Resource\n\
         - member C1 Crane\n",
    ];
    let ran = ask(&folder, tickets, "", "y\ny\ny\ny\n");
    let last = "line 4: delete individual C1: would remove 2 facts\n- individual C1\n- member C1 Resource\n";
    let sum = "4 tickets: 4 accepted, 0 refused; 0 facts added, 0 removed\n";
    let shown = [class, member, goes, last, sum].join(QUESTION);
    assert_eq!((ran.status, ran.stdout), (0, shown));
    std::fs::remove_file(folder.join("a.tickets")).unwrap();
    assert!(folder.files() == before);

    let ran = ask(&folder, tickets, "", "y\nn\ny\ny\n");
    let goes = "line 3: delete class Crane: would remove 2 facts\n- class Crane\n- subclass Crane Resource\n";
    let last = "line 4: delete individual C1: would change nothing\n";
    let sum = "4 tickets: 3 accepted, 0 refused, 1 not agreed; 0 facts added, 0 removed\n";
    let shown = [class, member, &format!("{NOT_AGREED}{goes}"), last, sum].join(QUESTION);
    assert_eq!((ran.status, ran.stdout), (1, shown));
}

/// A refused ticket is told with its reason and not asked about. What is said of it goes by what was agreed
/// to, and takes it that what follows will be.
#[test]
fn refused_in_between() {
    let tickets = "insert class Crane\ninsert member C1 Crane\ninsert member C2 Hoist\n\
                   insert subclass Hoist Crane\n";
    let crane = "line 1: insert class Crane: would add 2 facts\n+ class Crane\n+ subclass Crane Resource\n";
    let refused = "refusal 16: The ticket names a class that the graph does not have.";
    let late =
        format!("line 3: insert member C2 Hoist: {refused}\n  Line 4 makes Hoist: put it before this one.\n");
    let ran = ask(&Folder::with_plant(), tickets, "", "y\ny\ny\n");
    let member = "line 2: insert member C1 Crane: would add 3 facts\n+ individual C1\n\
                  + member C1 Resource\n+ member C1 Crane\n";
    let hoist = "line 4: insert subclass Hoist Crane: would add 3 facts\n+ class Hoist\n\
                 + subclass Hoist Resource\n+ subclass Hoist Crane\n";
    let end = "4 tickets: 3 accepted, 1 refused; 8 facts added, 0 removed\n3 new names: Crane, C1, Hoist\n";
    let shown = [crane, member, &format!("{late}{hoist}"), end].join(QUESTION);
    assert_eq!((ran.status, ran.stdout), (1, shown));

    let ran = ask(&Folder::with_plant(), tickets, "", "n\nn\n");
    let early =
        format!("line 2: insert member C1 Crane: {refused}\n  Line 4 makes Crane: put it before this one.\n");
    let hoist = "line 4: insert subclass Hoist Crane: would add 5 facts\n+ class Crane\n+ class Hoist\n\
                 + subclass Crane Resource\n+ subclass Hoist Resource\n+ subclass Hoist Crane\n";
    let end =
        format!("{NOT_AGREED}4 tickets: 0 accepted, 2 refused, 2 not agreed; 0 facts added, 0 removed\n");
    let shown = [crane, &format!("{NOT_AGREED}{early}{late}{hoist}"), &end].join(QUESTION);
    assert_eq!((ran.status, ran.stdout), (1, shown));
}

/// So is what is said of a holder: the value that was not agreed to is not there.
#[test]
fn refused_by_what_was_agreed() {
    let tickets = "insert value M1 KX-4712 serialNumber\ninsert value M2 KX-4712 serialNumber\n\
                   insert value P8 KX-4712 serialNumber\n";
    let shown = |line: usize, holder: &str| {
        format!(
            "line {line}: insert value {holder} KX-4712 serialNumber: would add 2 facts\n\
             + literal KX-4712\n+ value {holder} KX-4712 serialNumber\n{QUESTION}"
        )
    };
    let clash = "line 3: insert value P8 KX-4712 serialNumber: refusal 10: The ticket clashes with what the \
                 graph holds.\n  serialNumber is exclusive, and M2 has KX-4712 for it already.\n";
    let end = "3 tickets: 1 accepted, 1 refused, 1 not agreed; 2 facts added, 0 removed\n\
               1 new name: KX-4712\n";
    let ran = ask(&Folder::with_plant(), tickets, "", "n\ny\n");
    let said = format!("{}{NOT_AGREED}{}{clash}{end}", shown(1, "M1"), shown(2, "M2"));
    assert_eq!((ran.status, ran.stdout), (1, said));
}

/// With `--yes` the same is shown without the questions, also where standard input gives the tickets.
#[test]
fn yes() {
    let tickets = "delete class Pump\ninsert member P9 Pump\ninsert class Crane\ninsert class Crane\n";
    let folders = [(); 3].map(|()| Folder::with_plant());
    let asked = ask(&folders[0], tickets, "", "y\ny\ny\n");
    folders[1].write("a.tickets", tickets);
    let file = folders[1].run(&["apply", "--ask", "--yes", "plant.img", "--file", "a.tickets"]);
    folders[2].write("a.tickets", tickets);
    let input = folders[2].shell("vimelosa apply plant.img --file - --yes --ask < a.tickets");
    assert!(asked.status == 1 && asked.stdout.contains("P9 Pump: refusal 16: "), "{asked:?}");
    assert_eq!(asked.stdout.matches(QUESTION).count(), 3);
    for (ran, folder) in [(file, &folders[1]), (input, &folders[2])] {
        assert_eq!((ran.status, ran.stderr.as_str()), (1, ""));
        assert_eq!(ran.stdout, asked.stdout.replace(QUESTION, ""));
        assert_eq!(folder.read("plant.img"), folders[0].read("plant.img"));
        assert_eq!(folder.text("plant.img.names"), folders[0].text("plant.img.names"));
    }
    let ran = folders[1].run(&["apply", "--ask", "--yes", "plant.img", "delete", "class", "Crane"]);
    let sum = "1 ticket: 1 accepted, 0 refused; 0 facts added, 2 removed\n";
    assert_eq!((ran.status, ran.stdout.ends_with(sum)), (0, true), "{ran:?}");
}

/// The first that is refused or not agreed drops all, and nothing after it is shown.
#[test]
fn all_or_nothing() {
    let folder = Folder::with_plant();
    let tickets = "insert literal 7.5kW\ninsert class Crane\ninsert literal 9kW\n";
    folder.write("a.tickets", tickets);
    let before = folder.files();
    let [literal, crane, other] = [
        "line 1: insert literal 7.5kW: would add 1 fact\n+ literal 7.5kW\n",
        "line 2: insert class Crane: would add 2 facts\n+ class Crane\n+ subclass Crane Resource\n",
        "line 3: insert literal 9kW: would add 1 fact\n+ literal 9kW\n",
    ];
    let dropped = "3 tickets: nothing applied, since one was not agreed; 0 facts added, 0 removed\n";
    for (answers, said) in [("n\n", NOT_AGREED), (END, ENDED)] {
        let ran = ask(&folder, tickets, "--all-or-nothing", &format!("y\n{answers}"));
        let shown = [literal, crane, &format!("{said}{dropped}")].join(QUESTION);
        assert_eq!((ran.status, ran.stdout), (1, shown));
        assert!(folder.files() == before);
    }
    let ran = ask(&folder, tickets, "--all-or-nothing", "y\ny\ny\n");
    let sum = "3 tickets: 3 accepted, 0 refused; 4 facts added, 0 removed\n3 new names: 7.5kW, Crane, 9kW\n";
    assert_eq!((ran.status, ran.stdout), (0, [literal, crane, other, sum].join(QUESTION)));

    let clash = "insert literal 5kW\ninsert class P7\ninsert literal 6kW\n";
    folder.write("a.tickets", clash);
    let before = folder.files();
    let said = "line 1: insert literal 5kW: would add 1 fact\n+ literal 5kW\n\
                line 2: insert class P7: refusal 10: The ticket clashes with what the graph holds.\n\
                3 tickets: nothing applied, since one was refused; 0 facts added, 0 removed\n";
    for (options, answers) in [("--all-or-nothing --yes", ""), ("--all-or-nothing", "y\n")] {
        let ran = ask(&folder, clash, options, answers);
        assert_eq!((ran.status, ran.stdout.replace(QUESTION, "")), (1, said.to_owned()));
        assert!(folder.files() == before);
    }
}
