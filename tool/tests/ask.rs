//! Looking before agreeing: what is shown of a ticket, what an answer does, and that nothing is run unseen.

mod asking;
mod folder;

use asking::{ask, at_terminal, END, ENDED, NOT_AGREED, QUESTION};
use folder::{Folder, Ran};

/// All that goes with the class Pump of the plant.
const PUMP_GOES: &str = "\
delete class Pump: would remove 14 facts
- class Pump
- property feeds
- subclass Pump Resource
- subclass Pump Equipment
- subclass Pump Machine
- subclass CentrifugalPump Pump
- subclass GearPump Pump
- subproperty feeds connectedTo
- domain feeds Pump
- range feeds Vessel
- member P7 Pump
- member P8 Pump
- value P7 T1 feeds
- value P8 R1 feeds
";

/// The sum of one ticket.
fn one_ticket(sum: &str) -> String {
    format!("1 ticket: {sum}\n")
}

/// What is shown is what goes, with names, and what is agreed to ends as without asking.
#[test]
fn agreed() {
    for answer in ["y\n", "yes\n", "Y\n", " Yes \n", &format!("y{END}{END}")] {
        let (folder, plain) = (Folder::with_plant(), Folder::with_plant());
        folder.write("before.img", folder.read("plant.img"));
        let ran = at_terminal(&folder, "apply --ask plant.img delete class Pump", answer);
        let end = if answer.ends_with('\n') { "" } else { "\n" };
        let sum = one_ticket("1 accepted, 0 refused; 0 facts added, 14 removed");
        assert_eq!((ran.status, ran.stdout), (0, format!("{PUMP_GOES}{QUESTION}{end}{sum}")));

        let diff = folder.run(&["diff", "before.img", "plant.img", "--names", "plant.img.names"]).stdout;
        assert_eq!(PUMP_GOES.split_once('\n').unwrap().1, diff);
        assert_eq!(plain.run(&["apply", "plant.img", "delete", "class", "Pump"]).status, 0);
        assert_eq!(folder.read("plant.img"), plain.read("plant.img"));
        assert_eq!(folder.read("plant.img.names"), plain.read("plant.img.names"));
    }
}

/// Any other answer leaves the ticket out, and the files byte for byte as they were.
#[test]
fn not_agreed() {
    let folder = Folder::with_plant();
    let before = folder.files();
    let sum = one_ticket("0 accepted, 0 refused, 1 not agreed; 0 facts added, 0 removed");
    for answer in ["n\n", "no\n", "\n", "yy\n", "y e s\n", "j\n", "\\377y\n"] {
        let ran = at_terminal(&folder, "apply --ask plant.img delete class Pump", answer);
        assert_eq!((ran.status, ran.stdout), (1, format!("{PUMP_GOES}{QUESTION}{NOT_AGREED}{sum}")));
        assert!(folder.files() == before);
    }
    let ran = at_terminal(&folder, "apply --ask plant.img delete class Pump", END);
    assert_eq!((ran.status, ran.stdout), (1, format!("{PUMP_GOES}{QUESTION}{ENDED}{sum}")));
    assert!(folder.files() == before);
}

/// New names are shown, and kept if they are agreed to.
#[test]
fn new_names() {
    let folder = Folder::with_plant();
    let names = folder.text("plant.img.names");
    let shown = "insert subclass ScrewPump Pump: would add 5 facts\n+ class ScrewPump\n\
                 + subclass ScrewPump Resource\n+ subclass ScrewPump Equipment\n\
                 + subclass ScrewPump Machine\n+ subclass ScrewPump Pump\n";
    for (answer, is_kept) in [("n\n", false), ("y\n", true)] {
        let words = "apply --ask plant.img insert subclass ScrewPump Pump";
        let ran = at_terminal(&folder, words, answer);
        assert!(ran.stdout.starts_with(&format!("{shown}{QUESTION}")), "{ran:?}");
        assert_eq!(ran.stdout.ends_with("\n1 new name: ScrewPump\n"), is_kept, "{ran:?}");
        assert_eq!(folder.text("plant.img.names") == names.clone() + "36\tScrewPump\n", is_kept);
    }
}

/// That nothing would change is told; no file is written, whatever the answer.
#[test]
fn nothing_changes() {
    let folder = Folder::with_plant();
    let before = folder.files();
    let shown = format!("insert member P7 Pump: would change nothing\n{QUESTION}");
    for (answer, status, said, sum) in [
        ("y\n", 0, "", "1 accepted, 0 refused"),
        ("n\n", 1, NOT_AGREED, "0 accepted, 0 refused, 1 not agreed"),
    ] {
        let ran = at_terminal(&folder, "apply --ask plant.img insert member P7 Pump", answer);
        let sum = one_ticket(&format!("{sum}; 0 facts added, 0 removed"));
        assert_eq!((ran.status, ran.stdout), (status, format!("{shown}{said}{sum}")));
        assert!(folder.files() == before);
    }
}

/// Of a long list every fact is shown, and the first line once more before the question.
#[test]
fn long_list() {
    let folder = Folder::with_plant();
    let members: String = (0..150).map(|number| format!("insert member G{number} GearPump\n")).collect();
    folder.write("many.tickets", members);
    assert_eq!(folder.run(&["apply", "plant.img", "--file", "many.tickets"]).status, 0);
    let ran = at_terminal(&folder, "apply --ask plant.img delete class GearPump", "n\n");
    let head = "delete class GearPump: would remove 156 facts\n";
    assert!(ran.stdout.starts_with(&format!("{head}- class GearPump\n")), "{ran:?}");
    assert!(ran.stdout.contains(&format!("\n- member G149 GearPump\n{head}{QUESTION}")), "{ran:?}");
    assert_eq!(ran.stdout.lines().filter(|line| line.starts_with("- ")).count(), 156);
}

/// A ticket that is given by ids, or by its bytes, is shown in words.
#[test]
fn tickets_in_words() {
    let folder = Folder::with_plant();
    for given in ["delete class 4", "ticket 0201040000", "delete  class\tPump"] {
        let ran = ask(&folder, &format!("# Pumps go.\n{given}\n"), "", "n\n");
        assert!(ran.stdout.starts_with(&format!("line 2: {PUMP_GOES}{QUESTION}")), "{ran:?}");
    }
}

/// An editor can be asked, and see what about: else nothing is run, and the way for scripts is told.
#[test]
fn without_a_terminal() {
    let folder = Folder::with_plant();
    folder.write("a.tickets", "delete class Pump\n");
    let before = folder.files();
    let fails = |ran: Ran, said: &str| {
        assert_eq!(ran.status, 2, "{ran:?}");
        let said = format!("vimelosa: {said}, or agree to every ticket with --yes\n");
        assert_eq!(ran.stdout.replace("\r\n", "\n") + &ran.stderr, said);
        assert!(folder.files() == before);
    };
    let unasked = "no terminal, so nobody can be asked: standard input: run the command at a terminal";
    fails(folder.run(&["apply", "--ask", "plant.img", "delete", "class", "Pump"]), unasked);
    fails(folder.shell("yes | vimelosa apply --ask plant.img --file a.tickets"), unasked);
    let tickets = "answers cannot come from where the tickets do: standard input: name a file";
    fails(folder.shell("vimelosa apply --ask plant.img --file - < a.tickets"), tickets);
    fails(at_terminal(&folder, "apply --ask plant.img --file -", ""), tickets);
    let unseen = "no terminal, so nobody sees what is asked: standard output: run the command at a terminal";
    fails(at_terminal(&folder, "apply --ask plant.img delete class Pump > /dev/null", ""), unseen);
}

/// There is no asking for operators, and `--yes` agrees to nothing that is not shown.
#[test]
fn other_options() {
    let folder = Folder::with_plant();
    let before = folder.files();
    for (options, said) in [
        (&["--ask", "--operator"][..], "'--ask' cannot be used with '--operator'"),
        (&["--operator", "--yes", "--ask"], "cannot be used with"),
        (&["--yes"], "required arguments were not provided: --ask"),
    ] {
        let ran = folder.run(&[&["apply", "plant.img", "delete", "class", "Pump"], options].concat());
        assert_eq!((ran.status, ran.stdout.as_str(), ran.stderr.lines().count()), (2, "", 1), "{ran:?}");
        assert!(ran.stderr.contains(said), "{ran:?}");
        assert!(folder.files() == before);
    }
}

/// Another program writes the image while the editor looks: nothing is written over it.
#[test]
fn image_changed_meanwhile() {
    let folder = Folder::with_plant();
    std::fs::copy(folder.join("plant.img"), folder.join("other.img")).unwrap();
    assert_eq!(folder.run(&["apply", "other.img", "insert", "member", "200", "4"]).status, 0);
    let (names, other) = (folder.read("plant.img.names"), folder.read("other.img"));
    // The pipe opens when the tool asks for the tickets; it has read the image then.
    let lines = [
        "mkfifo pipe",
        "printf 'y\\n' | script -E never -qec 'vimelosa apply --ask plant.img --file pipe' /dev/null &",
        "exec 3> pipe",
        "cp other.img plant.img",
        "echo 'delete class Pump' >&3",
        "exec 3>&-",
        "wait $!",
    ];
    let ran = folder.shell(&lines.join("\n"));
    assert_eq!(ran.status, 2, "{ran:?}");
    assert!(ran.stdout.contains("another program changed the file meanwhile"), "{ran:?}");
    assert!(folder.read("plant.img") == other && folder.read("plant.img.names") == names);
}
