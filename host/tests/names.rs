//! Names for ids: the file, the words that they stand in, and what is wrong with a name.

mod generator;
mod independent;

use generator::tickets::{bad_ticket, ticket, ALL_IDS};
use generator::{rounds, Random};
use vimelosa_host::{Fact, NameError, Names, NamesError, Ticket};

const LETTERS: [char; 12] = ['a', 'B', '7', '0', '-', '_', '.', '#', 'ä', '∂', '温', '`'];

/// Names for about one id in three. Some look like kinds, numbers or ids.
fn some_names(random: &mut Random) -> Names {
    let mut names = Names::new();
    for id in 2..=255 {
        if random.is_one_in(3) {
            let length = 1 + random.below(9);
            let name: String = (0..length).map(|_| random.pick(&LETTERS)).collect();
            let name =
                if random.is_one_in(9) { random.pick(&["class", "insert", "3a"]).into() } else { name };
            // A name drawn twice, or one that is none, leaves the id without.
            let _ = names.insert(id, &name);
        }
    }
    names
}

#[test]
fn a_file_is_read_back() {
    let mut random = Random::for_test("a_file_is_read_back");
    for _ in 0..rounds(100) {
        let names = some_names(&mut random);
        let text = names.to_string();
        assert!(names.iter().count() > 20);
        assert_eq!(text.lines().count(), names.iter().count());
        assert_eq!(text.parse(), Ok(names.clone()));

        let mut lines: Vec<&str> = text.lines().chain(["", "# a remark", "#"]).collect();
        random.shuffle(&mut lines);
        assert_eq!(lines.join("\n").parse(), Ok(names.clone()));
        assert_eq!(lines.join("\r\n").parse(), Ok(names));
    }
}

/// Editors write a byte order mark, end lines with CR LF, or leave the last line without an end.
#[test]
fn files_of_other_editors_are_read() {
    let names: Names = "2\tmachine\n3\tpump\n".parse().unwrap();
    for text in ["\u{feff}2\tmachine\r\n3\tpump\r\n", "\u{feff}# ids\n2\tmachine\n003\tpump"] {
        assert_eq!(text.parse().as_ref(), Ok(&names), "{text:?}");
    }
    assert_eq!("\u{feff}".parse(), Ok(Names::new()));
}

#[test]
fn names_and_ids_are_found_both_ways() {
    let mut random = Random::for_test("names_and_ids");
    let names = some_names(&mut random);
    let ids: Vec<u8> = names.iter().map(|(id, _)| id).collect();
    assert!(ids.windows(2).all(|two| two[0] < two[1]));
    for (id, name) in names.iter() {
        assert_eq!((names.name_of(id), names.id_of(name)), (Some(name), Some(id)));
    }
    let unnamed = (2..=255).filter(|id| !ids.contains(id));
    assert!(unnamed.into_iter().all(|id| names.name_of(id).is_none()));
}

#[test]
fn tickets_are_read_back_with_names() {
    let mut random = Random::for_test("tickets_are_read_back_with_names");
    for round in 0..rounds(40) {
        let names = some_names(&mut random);
        for _ in 0..100 {
            let ids = &ALL_IDS[round % 4];
            let is_bad = random.is_one_in(4);
            let bytes = if is_bad { bad_ticket(&mut random, ids) } else { ticket(&mut random, ids) };
            let ticket = Ticket::of_bytes(bytes);
            assert_eq!(names.read_ticket(&names.show(ticket).to_string()), Ok(ticket));
            assert_eq!(names.read_ticket(&ticket.to_string()), Ok(ticket));
        }
    }
}

#[test]
fn facts_and_tickets_are_shown_with_the_names_there_are() {
    let names: Names = "2\tmachine\n10\tserial_number\n".parse().unwrap();
    let shown = |fact: &str| names.show(fact.parse::<Fact>().unwrap()).to_string();
    assert_eq!(shown("class 0"), "class Resource");
    assert_eq!(shown("range 10 Literal"), "range serial_number Literal");
    assert_eq!(shown("value 4 7 10"), "value 4 7 serial_number");
    let ticket = Ticket::of_bytes([1, 2, 10, 2, 1]);
    assert_eq!(names.show(ticket).to_string(), "insert property serial_number machine Literal");
    assert_eq!(names.show(Ticket::of_bytes([1, 7, 2, 0, 0])).to_string(), "ticket 0107020000");
}

#[test]
fn words_with_names_that_are_no_ticket_are_told_apart() {
    let names: Names = "2\tmachine\n".parse().unwrap();
    let wrong = [
        ("insert class valve", "read `valve`, expected a name or an id from 0 to 255"),
        ("insert class 300", "read `300`, expected a name or an id from 0 to 255"),
        (
            "insert machine",
            "read `machine`, expected a kind: class, property, individual, literal, subclass, \
            subproperty, member, value, exclusive",
        ),
        (
            "insert class Literal",
            "read `insert class Literal`, expected Literal, which is id 1, only as a range",
        ),
    ];
    for (words, message) in wrong {
        assert_eq!(names.read_ticket(words).unwrap_err().to_string(), message);
    }
}

#[test]
fn each_fault_of_a_file_is_told_with_its_line() {
    let doubled_name = |name: &str| NameError::DoubledName(name.to_string());
    let faults = [
        ("pump\n", 1, NameError::BadLine),
        ("2\tmachine\n3 pump\n", 2, NameError::BadLine),
        ("2\tmachine\n \n", 2, NameError::BadLine),
        ("# ids\n\n256\tpump\n", 3, NameError::BadId),
        ("+2\tpump\n", 1, NameError::BadId),
        ("\tpump\n", 1, NameError::BadId),
        ("0\tEverything\n", 1, NameError::DoubledId(0)),
        ("2\tmachine\n1\tMark\n", 2, NameError::DoubledId(1)),
        ("2\tmachine\n3\tpump\n2\tvalve\n", 3, NameError::DoubledId(2)),
        ("2\tpump\n3\tpump\n", 2, doubled_name("pump")),
        ("2\tResource\n", 1, doubled_name("Resource")),
        ("2\tLiteral\n", 1, doubled_name("Literal")),
        ("2\t\n", 1, NameError::BadName),
        ("2\tdosing pump\n", 1, NameError::BadName),
        ("2\tpump\t\n", 1, NameError::BadName),
        ("2\tdosing\tpump\n", 1, NameError::BadName),
        ("2\tpump \r\n", 1, NameError::BadName),
        ("2 \tpump\n", 1, NameError::BadId),
        ("2\tmachine\n\u{feff}3\tpump\n", 2, NameError::BadId),
        ("2\t4711\n", 1, NameError::BadName),
        ("2\t#pump\n", 1, NameError::BadName),
    ];
    for (text, line, reason) in faults {
        let sentence = format!("line {line}: {reason}");
        let error = text.parse::<Names>().unwrap_err();
        assert_eq!(error, NamesError { line, reason }, "{text}");
        assert_eq!(error.to_string(), sentence);
        assert!(!sentence.contains('\n') && sentence.ends_with('.'));
    }
}

#[test]
fn names_have_1_to_255_bytes_without_blanks() {
    let longest = "ä".repeat(127) + "x";
    let too_long = longest.clone() + "x";
    for good in ["a", "7a", "a#", "-", "温度", "می\u{200c}خواهم", "class", "10.5", &longest] {
        let mut names = Names::new();
        names.insert(2, good).unwrap();
        assert_eq!(names.to_string().parse(), Ok(names));
    }
    let blanks = ["a b", "a\u{a0}b", "a\u{2028}", "\u{7f}", "a\u{85}", "\u{1b}[2J"];
    let unseen = ["a\u{200b}b", "\u{202e}ab", "a\u{feff}", "a\u{ad}b", "a\u{2060}b", "\u{fffe}", "\u{ffff}"];
    let others = ["", "7", "0042", "#", &too_long];
    for name in blanks.iter().chain(&unseen).chain(&others) {
        assert_eq!(Names::new().insert(2, name), Err(NameError::BadName), "{name:?}");
        assert_eq!(Names::new().add(name, |_| false), Err(NameError::BadName), "{name:?}");
    }
}

#[test]
fn the_lowest_free_id_is_taken() {
    let mut names = Names::new();
    names.insert(3, "pump").unwrap();
    assert_eq!(names.add("valve", |id| id == 2), Ok(4));
    assert_eq!(names.add("machine", |_| false), Ok(2));
    assert_eq!(names.add("valve", |_| false), Err(NameError::DoubledName("valve".to_string())));
    assert_eq!(names.remove(3), Some("pump".to_string()));
    assert_eq!((names.name_of(3), names.id_of("pump")), (None, None));
    assert_eq!(names.add("pump", |_| false), Ok(3));
    for id in 5..=255 {
        assert_eq!(names.add(&format!("m{id}"), |_| false), Ok(id));
    }
    assert_eq!(names.add("one_more", |_| false), Err(NameError::NoFreeId));
    assert_eq!(names.id_of("one_more"), None);
    assert_eq!(names.iter().count(), 254);
    assert_eq!(names.to_string().parse(), Ok(names));
}

#[test]
fn given_names_stay() {
    let mut names = Names::default();
    assert_eq!(names, Names::new());
    for id in [0, 1] {
        assert_eq!(names.remove(id), None);
        assert_eq!(names.insert(id, "other"), Err(NameError::DoubledId(id)));
    }
    assert_eq!((names.id_of("Resource"), names.id_of("Literal")), (Some(0), Some(1)));
    assert_eq!(names.to_string(), "");
}

/// A refused insertion or addition leaves the names as they were.
#[test]
fn what_is_refused_changes_nothing() {
    let mut names: Names = "2\tpump\n".parse().unwrap();
    let before = names.clone();
    assert!(names.insert(2, "valve").is_err());
    assert!(names.insert(3, "pump").is_err());
    assert!(names.insert(3, "a b").is_err());
    assert!(names.add("pump", |_| false).is_err());
    assert!(names.add("valve", |_| true).is_err());
    assert_eq!(names, before);
}
