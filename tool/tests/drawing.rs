//! What a drawing shows.

mod folder;

use folder::Folder;
use std::process::Command;

/// Every class, member and property is in the SVG, by its name, once for each place in which it stands.
#[test]
fn svg_has_every_name() {
    let folder = Folder::with_plant();
    assert_eq!(folder.run(&["draw", "plant.img", "-o", "plant.svg"]).status, 0);
    let svg = folder.text("plant.svg");
    assert!(svg.starts_with("<?xml") && svg.trim_end().ends_with("</svg>"));
    for line in folder.text("plant.img.names").lines() {
        let name = line.split('\t').nth(1).unwrap();
        // Literals are values, which are not drawn.
        let is_drawn = !["KX-4711", "5.5kW"].contains(&name);
        assert_eq!(texts(&svg).iter().any(|text| text.contains(name)), is_drawn, "{name}");
    }
    let count = |text: &str| texts(&svg).iter().filter(|other| *other == text).count();
    assert_eq!(count("ControlValve"), 1);
    assert_eq!(count("Literal"), 2);
    assert_eq!(count("M1, M2"), 1);
}

/// The texts of an SVG, as a viewer shows them.
fn texts(svg: &str) -> Vec<String> {
    let texts = svg.split("<text").skip(1).filter_map(|part| {
        let text = part.split_once('>')?.1.split_once("</text>")?.0;
        let plain = text.replace("&#45;", "-").replace("&#39;", "'").replace("&#160;", " ");
        let plain = plain.replace("&lt;", "<").replace("&gt;", ">").replace("&quot;", "\"");
        Some(plain.replace("&amp;", "&"))
    });
    texts.collect()
}

/// Names may have any character but blanks: none is read as a part of the drawing.
#[test]
fn names_with_signs() {
    let folder = Folder::new();
    let names = [
        "<B>", "a&b", "\"x\"", "{|}", "\\N", "a\\b", "\\\\", "Kühler", "泵", "&amp;", "a->b", "//", "<!--",
        "]];",
    ];
    folder.run(&["new", "a.img"]);
    let members = names.iter().map(|name| format!("insert member i{name} {name}\n"));
    let properties = names.iter().map(|name| format!("insert property p{name} {name} {name}\n"));
    folder.write("a.tickets", properties.chain(members).collect::<String>());
    assert_eq!(folder.run(&["apply", "a.img", "--file", "a.tickets"]).status, 0);
    let ran = folder.run(&["draw", "a.img"]);
    assert_eq!((ran.status, ran.stderr.as_str()), (0, ""));
    let shown = texts(&ran.stdout);
    for name in names {
        for text in [name.to_owned(), format!("i{name}"), format!("p{name}")] {
            assert!(shown.contains(&text), "{text} is not in {shown:?}");
        }
    }
}

/// Exclusive properties are said to be such, in a small drawing and in a large one, beside what they are
/// under.
#[test]
fn exclusive_properties() {
    let folder = Folder::with_plant();
    let shown = || texts(&folder.run(&["draw", "plant.img"]).stdout).concat();
    assert!(shown().contains("serialNumber (exclusive)"), "{}", shown());
    assert_eq!(folder.run(&["apply", "plant.img", "insert", "exclusive", "feeds"]).status, 0);
    let classes = (100..120).map(|id| format!("insert class {id}\n")).collect::<String>();
    for tickets in ["", &classes] {
        folder.write("a.tickets", tickets);
        assert_eq!(folder.run(&["apply", "plant.img", "--file", "a.tickets"]).status, 0);
        let shown = shown();
        assert_eq!(shown.matches("exclusive").count(), 2, "{shown}");
        assert!(shown.contains("feeds (exclusive, under connectedTo)"), "{shown}");
    }
}

/// With many classes the arrows go left, and the properties stand in the boxes.
#[test]
fn large_drawing() {
    let folder = Folder::with_plant();
    folder.write("a.tickets", (100..120).map(|id| format!("insert class {id}\n")).collect::<String>());
    assert_eq!(folder.run(&["apply", "plant.img", "--file", "a.tickets"]).status, 0);
    assert_eq!(folder.run(&["apply", "plant.img", "insert", "property", "<p>", "Motor", "Hall"]).status, 0);
    let text = folder.run(&["draw", "plant.img", "--dot"]).stdout;
    assert!(text.contains("rankdir=RL") && !text.contains("style=dashed"), "{text}");
    let shown = texts(&folder.run(&["draw", "plant.img"]).stdout);
    for line in ["drives → Machine", "ratedPower → Literal", "<p> → Hall", "117"] {
        assert!(shown.iter().any(|text| text == line), "{line} is not in {shown:?}");
    }
    assert!(shown.concat().contains("(under connectedTo) → Vessel"), "{shown:?}");
}

/// Without dot the drawing fails in one line, and its text can still be had.
#[test]
fn dot_is_missing() {
    let folder = Folder::with_plant();
    let before = folder.files();
    let without = |words: &[&str]| folder::ran(folder.command(words).env("PATH", "").output().unwrap());
    let ran = without(&["draw", "plant.img", "-o", "plant.svg"]);
    let said =
        "vimelosa: no program dot is found: PATH: install graphviz, or print the DOT text with --dot\n";
    assert_eq!((ran.status, ran.stderr.as_str()), (2, said));
    assert!(folder.files() == before);
    assert_eq!(without(&["draw", "plant.img", "--dot"]).status, 0);
}

/// A dot that fails, or that reads nothing, is told too.
#[test]
fn dot_fails() {
    use std::os::unix::fs::PermissionsExt;
    let folder = Folder::with_plant();
    folder.write("dot", "#!/bin/sh\necho 'no fonts' >&2\nexit 3\n");
    std::fs::set_permissions(folder.join("dot"), std::fs::Permissions::from_mode(0o755)).unwrap();
    let mut command: Command = folder.command(&["draw", "plant.img"]);
    let ran = folder::ran(command.env("PATH", folder.path()).output().unwrap());
    assert_eq!((ran.status, ran.stdout.as_str()), (2, ""));
    assert!(ran.stderr.starts_with("vimelosa: dot failed (no fonts): "), "{ran:?}");
}

/// The largest class tree that a graph can have is drawn and shown in good time: chains of two classes beside
/// each other, each under both of the next two, have very many paths.
#[test]
fn many_paths() {
    let folder = Folder::new();
    folder.run(&["new", "a.img"]);
    let mut tickets = String::new();
    for level in 0..30 {
        for low in ["a", "b"] {
            for high in ["a", "b"] {
                tickets += &format!("insert subclass {low}{level} {high}{}\n", level + 1);
            }
        }
    }
    folder.write("a.tickets", tickets);
    assert_eq!(folder.run(&["apply", "a.img", "--file", "a.tickets"]).status, 0);
    assert!(folder.run(&["stat", "a.img"]).stdout.contains("32 classes: Resource > a30 > a29 > "));
    assert_eq!(folder.run(&["show", "a.img"]).stdout.matches("(see above)").count(), 60);
    assert_eq!(folder.run(&["draw", "a.img", "--dot"]).stdout.matches("arrowhead=empty").count(), 122);
}
