//! The man page.

mod folder;

use folder::{Folder, PACKAGE};
use std::path::Path;
use std::process::Command;

/// `vimelosa man > man/vimelosa.1` renews it.
#[test]
fn page_is_what_the_tool_prints() {
    let kept = std::fs::read_to_string(Path::new(PACKAGE).join("man/vimelosa.1")).unwrap();
    assert!(Folder::new().run(&["man"]).stdout == kept, "man/vimelosa.1 is not what vimelosa man prints");
}

/// Each command and each of its options is in the page.
#[test]
fn page_has_every_option() {
    let folder = Folder::new();
    let page = folder.run(&["man"]).stdout.replace("\\-", "-");
    let commands =
        ["new", "apply", "show", "facts", "check", "diff", "draw", "export", "import", "tickets", "stat"];
    for command in commands {
        assert!(page.contains(&format!("\n.SS {command}\n")), "{command}");
        let help = folder.run(&[command, "--help"]).stdout;
        let options = help.split_whitespace().filter(|word| word.starts_with("--"));
        for option in options.map(|word| word.trim_end_matches(|c: char| !c.is_alphanumeric())) {
            assert!(page.contains(&format!("\\fB{option}\\fR")), "{command} {option}");
        }
    }
}

/// Where groff is installed it has no warning for the page.
#[test]
fn roff_has_nothing_against_it() {
    let page = Path::new(PACKAGE).join("man/vimelosa.1");
    let output = Command::new("groff").args(["-man", "-Tutf8", "-ww", "-z"]).arg(page).output();
    if let Ok(output) = output {
        assert_eq!(String::from_utf8_lossy(&output.stderr), "");
        assert!(output.status.success());
    }
}
