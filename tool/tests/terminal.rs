//! The tool at a terminal, which `script` makes, and in a pipe.

mod folder;

use folder::Folder;

/// A list of 20,000 tickets that puts a class in and takes it out again.
fn long_list(folder: &Folder) {
    folder.run(&["new", "a.img"]);
    folder.write("long.tickets", "insert class Pump\ndelete class Pump\n".repeat(10_000));
    folder.write("short.tickets", "insert class Pump\ndelete class Pump\n".repeat(10));
}

/// Runs the tool with a terminal as standard error; what was written there.
fn at_terminal(folder: &Folder, words: &str) -> String {
    let ran = folder.shell(&format!("script -qec 'vimelosa {words} > out.txt' /dev/null"));
    assert_eq!(ran.status, 0, "{ran:?}");
    ran.stdout
}

#[test]
fn progress_of_long_lists() {
    let folder = Folder::new();
    long_list(&folder);
    for option in ["", " --all-or-nothing"] {
        let words = format!("apply a.img --file long.tickets{option}");
        let shown = at_terminal(&folder, &words);
        assert!(shown.starts_with("\r4,096 of 20,000 tickets\r8,192 of 20,000 tickets\r"), "{shown:?}");
        assert!(shown.ends_with("\r20,000 of 20,000 tickets\r\x1b[K"), "{shown:?}");
        let sum = "20,000 tickets: 20,000 accepted, 0 refused; 0 facts added, 0 removed\n";
        assert_eq!(folder.text("out.txt"), sum);

        let elsewhere = folder.shell(&format!("vimelosa {words}"));
        assert_eq!((elsewhere.stderr.as_str(), elsewhere.stdout.as_str()), ("", sum));
    }
    assert_eq!(at_terminal(&folder, "apply a.img --file short.tickets"), "");
}

/// In pieces or at once, a list leaves the same, with the same tickets refused.
#[test]
fn pieces_change_nothing() {
    let folder = Folder::with_plant();
    let mut tickets = String::new();
    for place in 0..9000 {
        let class = place % 40 + 100;
        tickets += match place % 3 {
            0 => format!("insert subclass {class} {}\n", place % 37 + 100),
            1 => format!("insert subclass {} Machine\n", class),
            _ => format!("delete class {}\n", place % 41 + 100),
        }
        .as_str();
    }
    folder.write("many.tickets", tickets);
    std::fs::copy(folder.join("plant.img"), folder.join("b.img")).unwrap();
    let words =
        |image| format!("vimelosa apply {image} --names plant.img.names --file many.tickets > {image}.out");
    let ran = folder.shell(&format!("script -qec '{}' /dev/null", words("plant.img")));
    assert!(ran.stdout.contains("\r8,192 of 9,000 tickets"), "{ran:?}");
    assert_eq!(folder.shell(&words("b.img")).status, 1);
    assert!(folder.text("b.img.out").contains(": refusal 10: "));
    assert_eq!(folder.text("plant.img.out"), folder.text("b.img.out"));
    assert_eq!(folder.read("plant.img"), folder.read("b.img"));
}

/// A list longer than one call of the library counts.
#[test]
fn list_above_65535() {
    let folder = Folder::new();
    folder.run(&["new", "a.img"]);
    let mut tickets = "insert class 2\n".repeat(65_536);
    tickets += "insert subclass 2 2\ninsert class 3\n";
    folder.write("a.tickets", &tickets);
    let ran = folder.run(&["apply", "a.img", "--file", "a.tickets"]);
    let refused = "line 65537: insert subclass 2 2: refusal 10: ";
    assert!(ran.status == 1 && ran.stdout.starts_with(refused), "{ran:?}");
    let sum = "65,538 tickets: 65,537 accepted, 1 refused; 4 facts added, 0 removed\n";
    assert!(ran.stdout.ends_with(sum), "{ran:?}");

    folder.write("a.tickets", tickets.replace("class 3", "class 4"));
    let before = folder.files();
    let ran = folder.run(&["apply", "a.img", "--file", "a.tickets", "--all-or-nothing"]);
    let sum = "65,538 tickets: nothing applied, since one was refused; 0 facts added, 0 removed\n";
    assert!(ran.status == 1 && ran.stdout.starts_with(refused) && ran.stdout.ends_with(sum), "{ran:?}");
    assert!(folder.files() == before);
}

/// A reader who closes the pipe ends the tool without a word.
#[test]
fn closed_pipe() {
    let folder = Folder::with_plant();
    for command in ["facts plant.img", "show plant.img", "man", "--help", "draw plant.img --dot"] {
        let line = format!("{{ sleep 0.1; vimelosa {command}; echo $? >&2; }} | true");
        let ran = folder.shell(&line);
        assert_eq!((ran.stdout.as_str(), ran.stderr.as_str()), ("", "0\n"), "{command}");
    }
}
