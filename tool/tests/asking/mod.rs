//! The tool asking at a terminal.

// Each test uses a part.
#![allow(dead_code)]

use crate::folder::{Folder, Ran};

pub const QUESTION: &str = "Agree? [y/N] ";

/// What is said of a ticket that is not agreed.
pub const NOT_AGREED: &str = "  Not agreed: this ticket is left out.\n";

/// What is said at the end of the input.
pub const ENDED: &str = "\n  Not agreed: this ticket and any after it are left out.\n";

/// What a terminal takes as the end of the input, for `printf`.
pub const END: &str = "\\004";

/// Runs the tool at a terminal that `script` makes, where the answers are typed. They are not echoed, so what
/// is printed after a question goes on in its line.
pub fn at_terminal(folder: &Folder, words: &str, answers: &str) -> Ran {
    let ran = folder.shell(&format!(
        "printf '{}' | script -E never -qec 'vimelosa {words}' /dev/null",
        answers.replace('\n', "\\n")
    ));
    Ran { stdout: ran.stdout.replace("\r\n", "\n"), ..ran }
}

/// Asks about the tickets of a list on the plant.
pub fn ask(folder: &Folder, tickets: &str, options: &str, answers: &str) -> Ran {
    folder.write("a.tickets", tickets);
    at_terminal(folder, &format!("apply --ask plant.img --file a.tickets {options}"), answers)
}
