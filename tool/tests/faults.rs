//! Faults: a full disk, a folder that cannot be written, a file cut off or changed by another. After each the
//! files are byte for byte as before and no new file lies about.

mod folder;

use folder::{Folder, Ran};
use std::fs;
use std::os::unix::fs::{symlink, PermissionsExt};

/// Runs what must fail, and holds the folder against what it was before.
fn fails(folder: &Folder, status: i32, says: &str, run: impl FnOnce() -> Ran) {
    let before = folder.files();
    let ran = run();
    assert_eq!(ran.status, status, "{ran:?}");
    assert!(ran.stderr.contains(says), "{says:?} is not in {ran:?}");
    assert!(ran.stderr.starts_with("vimelosa: ") && ran.stderr.ends_with('\n'), "{ran:?}");
    assert_eq!(ran.stderr.lines().count(), 1, "{ran:?}");
    assert!(before == folder.files(), "files changed: {ran:?}");
}

const NEW_MEMBER: [&str; 5] = ["apply", "plant.img", "insert", "member", "P9"];

fn new_member(class: &str) -> Vec<&str> {
    [&NEW_MEMBER[..], &[class]].concat()
}

/// No file may grow: what a full disk does, without the rights to make one.
#[test]
fn full_disk() {
    let folder = Folder::with_plant();
    // The signal that the limit sends is ignored, so that writing fails instead.
    let full = |line: &str| folder.shell(&format!("trap '' XFSZ; ulimit -f 0; exec vimelosa {line}"));
    fails(&folder, 2, "File too large", || full("apply plant.img insert member P9 Pump"));
    fails(&folder, 2, "File too large", || full("apply plant.img insert member M1 Pump"));
    fails(&folder, 2, "File too large", || full("new other.img"));
    fails(&folder, 2, "File too large", || full("draw plant.img --dot -o plant.dot"));
    fails(&folder, 2, "File too large", || full("export plant.img -o plant.nt"));
    assert_eq!(folder.run(&["export", "plant.img", "-o", "plant.nt"]).status, 0);
    fails(&folder, 2, "File too large", || full("import plant.nt other.img"));
    fails(&folder, 2, "File too large", || full("export plant.img -o plant.nt"));
}

/// The disk has room for the names, but not for the image after them: the names too stay as they were.
#[test]
fn disk_full_at_the_image() {
    let folder = Folder::with_plant();
    // The names fit into a block of 512 bytes, the image does not.
    folder.write("short.names", "2\tEquipment\n");
    folder.write("many.tickets", (100..200).map(|id| format!("insert class {id}\n")).collect::<String>());
    assert_eq!(folder.run(&["apply", "plant.img", "--file", "many.tickets"]).status, 0);
    assert!(folder.read("plant.img").len() > 512);
    let line = "apply plant.img --names short.names insert subclass Crane Equipment";
    let full = || folder.shell(&format!("trap '' XFSZ; ulimit -f 1; exec vimelosa {line}"));
    fails(&folder, 2, "plant.img", full);
}

#[test]
fn unwritable_folder() {
    let folder = Folder::with_plant();
    // The parent is a file.
    fails(&folder, 2, "plant.tickets/x.img", || folder.run(&["new", "plant.tickets/x.img"]));
    fails(&folder, 2, "missing/x.svg", || folder.run(&["draw", "plant.img", "--dot", "-o", "missing/x.svg"]));
    // Not even root makes files here.
    fails(&folder, 2, "/proc/x.img", || folder.run(&["new", "/proc/x.img"]));
    let words = ["apply", "plant.img", "insert", "class", "Crane", "--names", "/proc/x.names"];
    fails(&folder, 2, "/proc/x.names", || folder.run(&words));

    fs::create_dir(folder.join("kept")).unwrap();
    fs::copy(folder.join("plant.img"), folder.join("kept/plant.img")).unwrap();
    fs::set_permissions(folder.join("kept"), fs::Permissions::from_mode(0o555)).unwrap();
    // For root the mode of a folder is no hindrance.
    if fs::write(folder.join("kept/probe"), "").is_err() {
        let words = ["apply", "kept/plant.img", "insert", "class", "200"];
        fails(&folder, 2, "Permission denied", || folder.run(&words));
    }
    fs::set_permissions(folder.join("kept"), fs::Permissions::from_mode(0o755)).unwrap();
}

#[test]
fn read_only_file() {
    let folder = Folder::with_plant();
    for name in ["plant.img", "plant.img.names"] {
        fs::set_permissions(folder.join(name), fs::Permissions::from_mode(0o444)).unwrap();
        fails(&folder, 2, "read-only", || folder.run(&new_member("Pump")));
        fs::set_permissions(folder.join(name), fs::Permissions::from_mode(0o644)).unwrap();
    }
}

/// A device or a folder is never renamed over.
#[test]
fn special_files() {
    let folder = Folder::with_plant();
    for target in ["/dev/null", "/dev/full", "."] {
        let words = ["draw", "plant.img", "--dot", "-o", target];
        fails(&folder, 2, "not a regular file", || folder.run(&words));
    }
}

/// An image cut off anywhere is refused by every command, and stays as it is.
#[test]
fn image_cut_off() {
    let folder = Folder::with_plant();
    let whole = folder.read("plant.img");
    for length in [0, 1, 61, 62, 67, 68, 100, whole.len() - 1] {
        folder.write("plant.img", &whole[..length]);
        for command in ["show", "facts", "stat", "draw", "export"] {
            fails(&folder, 1, "refusal 12", || folder.run(&[command, "plant.img"]));
        }
        fails(&folder, 1, "refusal 12", || folder.run(&new_member("Pump")));
        fails(&folder, 1, "refusal 12", || folder.run(&["diff", "plant.img", "plant.img"]));
    }
    folder.write("plant.img", [whole, vec![0]].concat());
    fails(&folder, 1, "refusal 12", || folder.run(&new_member("Pump")));
}

/// A device that never ends is not read to its end.
#[test]
fn endless_image() {
    let folder = Folder::new();
    fails(&folder, 1, "refusal 12", || folder.run(&["show", "/dev/zero"]));
    assert_eq!(folder.run(&["check", "/dev/zero"]).status, 1);
}

#[test]
fn full_standard_output() {
    let folder = Folder::with_plant();
    for line in ["show plant.img", "facts plant.img", "check plant.img", "export plant.img", "--help", "man"]
    {
        fails(&folder, 2, "standard output", || folder.shell(&format!("vimelosa {line} > /dev/full")));
    }
}

/// A text that was cut off in a line, or damaged in one, makes no image; the line is told.
#[test]
fn text_cut_off() {
    let folder = Folder::with_plant();
    let text = folder.run(&["export", "plant.img"]).stdout;
    for (line, end) in text.match_indices('\n').map(|(end, _)| end).enumerate().step_by(9) {
        folder.write("cut.nt", &text[..end]);
        let says =
            format!("refusal 15: A line of the text is outside the profile: line {} of cut.nt", line + 1);
        fails(&folder, 1, &says, || folder.run(&["import", "cut.nt", "new.img"]));
        let (before, after) = text.as_bytes().split_at(end);
        folder.write("bytes.nt", [before, b"\xff", after].concat());
        let says = format!("line {} of bytes.nt", line + 1);
        fails(&folder, 1, &says, || folder.run(&["import", "bytes.nt", "new.img"]));
    }
}

/// A text longer than any that is read, from a device that never ends.
#[test]
fn endless_text() {
    let folder = Folder::new();
    fails(&folder, 2, "more than 16,777,216 bytes", || folder.run(&["import", "/dev/zero", "new.img"]));
}

/// An image that is there, or that another program makes while the text comes, is not written over.
#[test]
fn import_over_a_file() {
    let folder = Folder::with_plant();
    assert_eq!(folder.run(&["export", "plant.img", "-o", "plant.nt"]).status, 0);
    fails(&folder, 2, "there already", || folder.run(&["import", "plant.nt", "plant.img"]));
    fails(&folder, 2, "there already", || folder.run(&["import", "plant.nt", "plant.nt"]));
    fails(&folder, 2, "there already", || folder.run(&["import", "plant.nt", "."]));
    let lines = [
        "mkfifo pipe",
        "vimelosa import pipe new.img &",
        "exec 3> pipe",
        "echo other > new.img",
        "cat plant.nt >&3",
        "exec 3>&-",
        "wait $!",
    ];
    let ran = folder.shell(&lines.join("\n"));
    assert_eq!(ran.status, 2, "{ran:?}");
    assert!(ran.stderr.contains("the file is there already"), "{ran:?}");
    assert_eq!(folder.text("new.img"), "other\n");
    fs::remove_file(folder.join("pipe")).unwrap();
    assert!(folder.files().keys().all(|path| !path.to_string_lossy().contains(".new-")));
}

/// Tickets that cannot be read: not even the first is run.
#[test]
fn tickets_cut_off() {
    let folder = Folder::with_plant();
    folder.write("cut.tickets", "insert member P9 Pump\ninsert member P10 Pu\ninsert member P1");
    let run = || folder.run(&["apply", "plant.img", "--file", "cut.tickets"]);
    fails(&folder, 2, "line 3 of cut.tickets", run);
    folder.write("latin.tickets", b"insert class Pump\ninsert class K\xfchler\n");
    let run = || folder.run(&["apply", "plant.img", "--file", "latin.tickets"]);
    fails(&folder, 2, "line 2 of latin.tickets", run);
}

/// Another program writes the image while the tickets come: nothing is written over it.
#[test]
fn two_writers() {
    let folder = Folder::with_plant();
    fs::copy(folder.join("plant.img"), folder.join("other.img")).unwrap();
    assert_eq!(folder.run(&["apply", "other.img", "insert", "class", "200"]).status, 0);
    let (names, other) = (folder.read("plant.img.names"), folder.read("other.img"));
    // The pipe opens when the tool asks for the tickets; it has read the image then.
    let lines = [
        "mkfifo pipe",
        "vimelosa apply plant.img --file pipe &",
        "exec 3> pipe",
        "cp other.img plant.img",
        "echo 'insert member P9 Pump' >&3",
        "exec 3>&-",
        "wait $!",
    ];
    let ran = folder.shell(&lines.join("\n"));
    assert_eq!(ran.status, 2, "{ran:?}");
    assert!(ran.stderr.contains("another program changed the file meanwhile"), "{ran:?}");
    assert!(folder.read("plant.img") == other && folder.read("plant.img.names") == names);
    fs::remove_file(folder.join("pipe")).unwrap();
    assert!(folder.files().keys().all(|path| !path.to_string_lossy().contains(".new-")));
}

/// The mode is kept, and a link stays a link to the file that it named.
#[test]
fn mode_and_links_stay() {
    let folder = Folder::with_plant();
    fs::create_dir(folder.join("store")).unwrap();
    fs::rename(folder.join("plant.img"), folder.join("store/real.img")).unwrap();
    fs::set_permissions(folder.join("store/real.img"), fs::Permissions::from_mode(0o640)).unwrap();
    symlink("store/real.img", folder.join("plant.img")).unwrap();
    assert_eq!(folder.run(&new_member("Pump")).status, 0);
    assert!(fs::symlink_metadata(folder.join("plant.img")).unwrap().file_type().is_symlink());
    let mode = fs::metadata(folder.join("store/real.img")).unwrap().permissions().mode();
    assert_eq!(mode & 0o7777, 0o640);
    assert!(folder.run(&["facts", "plant.img"]).stdout.contains("member P9 Pump"));

    symlink("plant.img", folder.join("again.img")).unwrap();
    symlink("round.img", folder.join("round.img")).unwrap();
    assert_eq!(folder.run(&["apply", "again.img", "insert", "class", "201"]).status, 0);
    assert!(folder.run(&["facts", "store/real.img"]).stdout.contains("class 201"));
    fails(&folder, 2, "round.img", || folder.run(&["new", "round.img"]));
}

/// A drawing never takes the place of the image or of the names, by whatever path, nor does a text that of
/// the image.
#[test]
fn output_over_its_sources() {
    let folder = Folder::with_plant();
    symlink("plant.img", folder.join("link.svg")).unwrap();
    for output in ["plant.img", "./plant.img.names", "link.svg"] {
        let words = ["draw", "plant.img", "--dot", "-o", output];
        fails(&folder, 2, "the drawing would go over the image or its names", || folder.run(&words));
    }
    for output in ["./plant.img", "./plant.img.names", "link.svg"] {
        let words = ["export", "plant.img", "-o", output];
        fails(&folder, 2, "the text would go over the image or its names", || folder.run(&words));
    }
}

/// While another has a lock on the image, nothing is written.
#[test]
fn locked_image() {
    let folder = Folder::with_plant();
    let run = || folder.shell("flock plant.img vimelosa apply plant.img insert member P9 Pump");
    fails(&folder, 2, "another program has a lock on the file", run);
}

/// Of calls at once some fail, but whatever is said to be done stays, under its name.
#[test]
fn calls_at_once() {
    let folder = Folder::with_plant();
    let done = |caller: usize| {
        let names = (0..20).map(|place| format!("C{caller}-{place}"));
        let apply = |name: &String| folder.run(&["apply", "plant.img", "insert", "class", name]).status;
        names.filter(|name| apply(name) == 0).collect::<Vec<_>>()
    };
    let done: Vec<String> = std::thread::scope(|scope| {
        let calls: Vec<_> = (0..4).map(|caller| scope.spawn(move || done(caller))).collect();
        calls.into_iter().flat_map(|call| call.join().unwrap()).collect()
    });
    let classes = folder.run(&["facts", "plant.img", "--kind", "class"]).stdout;
    assert!(!done.is_empty());
    for name in done {
        assert!(classes.lines().any(|line| line == format!("class {name}")), "{name} is lost: {classes}");
    }
}
