//! A folder for one test, and the tool run in it.

// Each test uses a part.
#![allow(dead_code)]

use std::collections::BTreeMap;
use std::fs;
use std::path::{Path, PathBuf};
use std::process::{Command, Output, Stdio};
use std::sync::atomic::{AtomicUsize, Ordering};

/// The tool that is tested.
pub const TOOL: &str = env!("CARGO_BIN_EXE_vimelosa");

/// The folder of this package.
pub const PACKAGE: &str = env!("CARGO_MANIFEST_DIR");

/// An empty folder of its own, removed in the end.
pub struct Folder {
    path: PathBuf,
}

/// What a call of the tool left.
#[derive(Debug)]
pub struct Ran {
    pub status: i32,
    pub stdout: String,
    pub stderr: String,
}

impl Folder {
    pub fn new() -> Folder {
        static COUNT: AtomicUsize = AtomicUsize::new(0);
        let name = format!("folder-{}-{}", std::process::id(), COUNT.fetch_add(1, Ordering::Relaxed));
        let path = Path::new(env!("CARGO_TARGET_TMPDIR")).join(name);
        fs::create_dir_all(&path).unwrap();
        Folder { path }
    }

    /// A folder with `plant.img` and its names, made from the tickets of the fixture.
    pub fn with_plant() -> Folder {
        let folder = Folder::new();
        fs::copy(fixture("plant.tickets"), folder.join("plant.tickets")).unwrap();
        assert_eq!(folder.run(&["new", "plant.img"]).status, 0);
        assert_eq!(folder.run(&["apply", "plant.img", "--file", "plant.tickets"]).status, 0);
        folder
    }

    pub fn path(&self) -> &Path {
        &self.path
    }

    pub fn join(&self, name: &str) -> PathBuf {
        self.path.join(name)
    }

    pub fn read(&self, name: &str) -> Vec<u8> {
        fs::read(self.join(name)).unwrap()
    }

    pub fn text(&self, name: &str) -> String {
        fs::read_to_string(self.join(name)).unwrap()
    }

    pub fn write(&self, name: &str, bytes: impl AsRef<[u8]>) {
        fs::write(self.join(name), bytes).unwrap();
    }

    /// A call of the tool in this folder, with nothing on standard input.
    pub fn command(&self, words: &[&str]) -> Command {
        let mut command = Command::new(TOOL);
        command.args(words).current_dir(&self.path).stdin(Stdio::null());
        command
    }

    /// Runs the tool in this folder.
    pub fn run(&self, words: &[&str]) -> Ran {
        ran(self.command(words).output().unwrap())
    }

    /// Runs a line of the shell in this folder; the tool is `vimelosa` there, and the examples have their
    /// names.
    pub fn shell(&self, line: &str) -> Ran {
        let path = std::env::var("PATH").unwrap_or_default();
        let built = Path::new(TOOL).parent().unwrap().display();
        let with_tool = format!("{built}:{built}/examples:{path}");
        let mut shell = Command::new("sh");
        shell.args(["-c", line]).current_dir(&self.path).env("PATH", with_tool).stdin(Stdio::null());
        ran(shell.output().unwrap())
    }

    /// The bytes of all files in this folder and below, by their paths.
    pub fn files(&self) -> BTreeMap<PathBuf, Vec<u8>> {
        let mut files = BTreeMap::new();
        let mut folders = vec![self.path.clone()];
        while let Some(folder) = folders.pop() {
            for entry in fs::read_dir(folder).unwrap().map(Result::unwrap) {
                match entry.file_type().unwrap().is_dir() {
                    true => folders.push(entry.path()),
                    false => drop(files.insert(entry.path(), fs::read(entry.path()).unwrap_or_default())),
                }
            }
        }
        files
    }
}

impl Drop for Folder {
    fn drop(&mut self) {
        let _ = fs::remove_dir_all(&self.path);
    }
}

pub fn fixture(name: &str) -> PathBuf {
    Path::new(PACKAGE).join("tests/fixtures").join(name)
}

pub fn ran(output: Output) -> Ran {
    let text = |bytes| String::from_utf8(bytes).unwrap();
    Ran {
        status: output.status.code().expect("the tool ends by itself"),
        stdout: text(output.stdout),
        stderr: text(output.stderr),
    }
}

/// An image of these bodies, each kind's in turn from 1 on, whether or not its graph is consistent. With ten
/// bodies it is as releases before 0.13.0 wrote it.
pub fn image_of<const N: usize>(bodies: [&[u8]; N]) -> Vec<u8> {
    let mut image = vec![1, N as u8];
    let mut start = 2 + 6 * N;
    for (place, body) in bodies.iter().enumerate() {
        let width = [1, 1, 1, 1, 2, 2, 2, 2, 2, 3, 1][place];
        image.extend([place as u8 + 1, width as u8]);
        image.extend((start as u16).to_le_bytes());
        image.extend(((body.len() / width) as u16).to_le_bytes());
        start += body.len();
    }
    image.extend(bodies.concat());
    image
}
