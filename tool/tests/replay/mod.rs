//! Replays the sessions of a Markdown file: in each block marked `console`, a line that starts with `$ ` is
//! run by the shell (lines that start with `> ` go on with it), and the lines up to the next are what it must
//! print, on standard output and standard error. All blocks of a file are one session in one folder.

use crate::folder::Folder;
use std::fs;
use std::path::Path;

/// If this is set, the files are written anew with what the commands print; `git diff` shows what changed.
const WRITE: &str = "VIMELOSA_WRITE_GOLDEN";

/// A piece of a Markdown file: lines as they are, or a command with what it must print.
enum Piece {
    Lines(Vec<String>),
    Command { line: usize, typed: Vec<String>, printed: Vec<String> },
}

/// Replays a file in a folder; answers how many commands it has. Panics with what differs.
pub fn replay(path: &Path, folder: &Folder) -> usize {
    let text = fs::read_to_string(path).unwrap();
    let mut pieces = pieces_of(&text);
    let (mut count, mut status, mut wrong) = (0, 0, String::new());
    for piece in &mut pieces {
        if let Piece::Command { line, typed, printed } = piece {
            let ran = folder.shell(&format!("exec 2>&1\n(exit {status})\n{}", script(typed)));
            let got: Vec<String> = ran.stdout.lines().map(str::to_owned).collect();
            if got != *printed {
                wrong += &format!("{}:{line}: {}\n", path.display(), typed.join("\n"));
                wrong += &format!("expected:\n{}\ngot:\n{}\n\n", printed.join("\n"), got.join("\n"));
            }
            (count, status, *printed) = (count + 1, ran.status, got);
        }
    }
    if std::env::var_os(WRITE).is_some() {
        fs::write(path, written(&pieces)).unwrap();
    } else {
        assert!(wrong.is_empty(), "{wrong}");
    }
    count
}

/// What the shell is given: the lines without the signs before them.
fn script(typed: &[String]) -> String {
    typed.iter().map(|line| line.get(2..).unwrap_or_default()).collect::<Vec<_>>().join("\n")
}

fn pieces_of(text: &str) -> Vec<Piece> {
    let mut pieces = vec![Piece::Lines(Vec::new())];
    let mut is_session = false;
    for (place, line) in text.lines().enumerate() {
        let own = line.to_owned();
        is_session = if is_session { line != "```" } else { line == "```console" };
        match pieces.last_mut().unwrap() {
            _ if is_session && line.starts_with("$ ") => {
                pieces.push(Piece::Command { line: place + 1, typed: vec![own], printed: Vec::new() });
            }
            Piece::Command { typed, printed, .. } if is_session => {
                let goes_on = printed.is_empty() && (line == ">" || line.starts_with("> "));
                if goes_on { typed } else { printed }.push(own);
            }
            Piece::Command { .. } => pieces.push(Piece::Lines(vec![own])),
            Piece::Lines(lines) => lines.push(own),
        }
    }
    pieces
}

fn written(pieces: &[Piece]) -> String {
    let lines = pieces.iter().flat_map(|piece| match piece {
        Piece::Lines(lines) => lines.clone(),
        Piece::Command { typed, printed, .. } => [typed.clone(), printed.clone()].concat(),
    });
    lines.map(|line| line + "\n").collect()
}
