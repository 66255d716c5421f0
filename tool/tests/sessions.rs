//! The tool as a person uses it: the golden file of each command, and the sessions of the READMEs, replayed.

mod folder;
mod replay;

use folder::{fixture, image_of, Folder, PACKAGE};
use replay::replay;
use std::fs;
use std::path::Path;

/// Replays the golden file of a command in a folder with the tickets of the plant, three broken images and an
/// old one.
fn golden(name: &str) {
    let folder = Folder::new();
    fs::copy(fixture("plant.tickets"), folder.join("plant.tickets")).unwrap();
    // 2 is a class and a property.
    folder.write("broken.img", image_of([&[0, 2], &[2], &[], &[], &[2, 0], &[], &[], &[], &[], &[], &[]]));
    // 2 is a class, but not a subclass of Resource.
    folder.write("unlinked.img", image_of([&[0, 2], &[], &[], &[], &[], &[], &[], &[], &[], &[], &[]]));
    // Individuals 3 and 4 have the value 5 for the exclusive property 2.
    let members = &[3, 0, 4, 0, 5, 0];
    let bodies: [&[u8]; 11] =
        [&[0], &[2], &[3, 4, 5], &[], &[], &[], &[2, 0], &[2, 0], members, &[3, 5, 2, 4, 5, 2], &[2]];
    folder.write("shared.img", image_of(bodies));
    // With ten entries: the class 2.
    folder.write("old.img", image_of([&[0, 2], &[], &[], &[], &[2, 0], &[], &[], &[], &[], &[]]));
    let path = Path::new(PACKAGE).join("tests/golden").join(format!("{name}.md"));
    assert!(replay(&path, &folder) > 0, "{} has no commands", path.display());
}

macro_rules! golden {
    ($($name:ident)*) => {
        $(#[test] fn $name() { golden(stringify!($name)); })*

        #[test]
        fn every_golden_file_is_replayed() {
            let mut names = [$(stringify!($name)),*].map(|name| format!("{name}.md"));
            let files = fs::read_dir(Path::new(PACKAGE).join("tests/golden")).unwrap();
            let mut found: Vec<String> =
                files.map(|file| file.unwrap().file_name().into_string().unwrap()).collect();
            names.sort();
            found.sort();
            assert_eq!(found, names);
        }
    };
}

golden! { new apply show facts check diff draw export import tickets stat help }

#[test]
fn readme_of_the_tool() {
    assert!(replay(&Path::new(PACKAGE).join("README.md"), &Folder::new()) > 0);
}

/// The session that `demo/run` shows: the repository's README, with the tickets that it reads.
#[test]
fn readme_of_the_repository() {
    let folder = Folder::new();
    let repository = Path::new(PACKAGE).join("..");
    fs::copy(repository.join("demo/members.tickets"), folder.join("members.tickets")).unwrap();
    assert!(replay(&repository.join("README.md"), &folder) > 0);
}
