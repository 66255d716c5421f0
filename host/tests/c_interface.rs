//! The C interface by way of its header, include/vimelosa.h: programs in C, compiled as a caller would and
//! run; one that measures the calls' stack, beside README; the header alone as C and as C++; its names and
//! numbers beside those of the documents and of Rust.

use std::env;
use std::ffi::OsStr;
use std::fs;
use std::path::{Path, PathBuf};
use std::process::{Command, Stdio};
use vimelosa_host::{Graph, Kind, LONGEST_IMAGE, LONGEST_LINE, LONGEST_TEXT, MOST_FACTS};

const STRICT: [&str; 4] = ["-Wall", "-Wextra", "-Werror", "-pedantic"];

/// What `plant` prints. The list is document 01's, and one more of two bytes.
const PRINTED: &str = "\
insert class 2: answer 0, added 2, removed 0, length 72, rest as lent 1
delete Resource is guarded: 1
delete Resource: answer 8, added 0, removed 0, length 0, rest as lent 1
class 3 is unknown: 1
insert member 4 of class 3: answer 16, added 0, removed 0, length 0, rest as lent 1
the output is short: 1
short output: answer 13, added 0, removed 0, length 0, rest as lent 1
the answers are few: 1
few answers: answer 14, accepted 0, refused 0, length 0, rest as lent 1
short output: answer 13, accepted 0, refused 0, length 0, rest as lent 1
list: answer 0, accepted 4, refused 2, length 80, rest as lent 1
answers: 0 0 0 0 10 4
bodies: 0 2 3 4 2 0 3 0 3 2 4 0
check: answer 0, rule place 0, above 0
check of a cut image: answer 12, rule place 0, above 0
check of a bad image: answer 3, rule place 11, above 0
the bad image is inconsistent: 1
exclusive: answer 0, accepted 3, refused 2, length 84, rest as lent 1
answers: 9 0 0 0 10
check: answer 0, rule place 0, above 0
check of an exclusive individual: answer 3, rule place 29, above 0
operator inserts individual 4: answer 0, added 2, removed 0, length 72, rest as lent 1
a class is not for operators: 1
operator inserts class 2: answer 17, added 0, removed 0, length 0, rest as lent 1
operator's class, no output: answer 17, added 0, removed 0, length 0, rest as lent 1
operator's short output: answer 13, added 0, removed 0, length 0, rest as lent 1
operator, no image: answer 12, added 0, removed 0, length 0, rest as lent 1
operators' list, few answers: answer 14, accepted 0, refused 0, length 0, rest as lent 1
operators' list, short output: answer 13, accepted 0, refused 0, length 0, rest as lent 1
operators' list: answer 0, accepted 1, refused 3, length 72, rest as lent 1
answers: 0 17 16 8
bodies: 0 4 4 0
operators' list, all empty: answer 12, accepted 0, refused 0, length 0, rest as lent 1
check of an old image: answer 0, rule place 0, above 0
no tickets on an old image: answer 0, accepted 0, refused 0, length 69, rest as lent 1
the image is the new one: 1
check of no image: answer 12, rule place 0, above 0
no image: answer 12, added 0, removed 0, length 0, rest as lent 1
no ticket: answer 4, added 0, removed 0, length 0, rest as lent 1
no output: answer 13, added 0, removed 0, length 0, rest as lent 1
all empty: answer 12, accepted 0, refused 0, length 0, rest as lent 1
no answers: answer 14, accepted 0, refused 0, length 0, rest as lent 1
no tickets, no output: answer 13, accepted 0, refused 0, length 0, rest as lent 1
no tickets: answer 0, accepted 0, refused 0, length 69, rest as lent 1
the image is the old one: 1
write triples: answer 0, length 145, rest as lent 1
the text is one line: 1
write triples to a short output: answer 13, length 0, rest as lent 1
write triples of a bad image: answer 3, length 0, rest as lent 1
write triples of no image: answer 12, length 0, rest as lent 1
read triples: answer 0, rule place 0, length 72, rest as lent 1
bodies: 0 2 2 0
read triples to a short output: answer 13, rule place 0, length 0, rest as lent 1
read triples without a last newline: answer 15, rule place 0, length 0, rest as lent 1
the text is outside the profile: 1
read triples without Resource: answer 3, rule place 4, length 0, rest as lent 1
read no triples: answer 3, rule place 25, length 0, rest as lent 1
";

/// What `preview` prints.
const PREVIEW_PRINTED: &str = "\
the plant: accepted 3, length 89
ask to insert class 2: answer 0, added 2, removed 0, above 0, rest as lent 1
added: 01020000 05020000
commit: answer 0, added 2, removed 0, length 72, rest as lent 1
as the single call: 1
ask to delete class 3: answer 0, added 0, removed 7, above 0, rest as lent 1
removed: 01030000 02050000 05030000 05030200 07050300 08050100 09040300
commit: answer 0, added 0, removed 7, length 77, rest as lent 1
as the single call: 1
commit on what it left: answer 18, added 0, removed 0, length 0, rest as lent 1
the run is short: 1
ask with a short run: answer 13, added 0, removed 0, above 0, rest as lent 1
the runs are out of date: 1
commit with a word more: answer 18, added 0, removed 0, length 0, rest as lent 1
commit with a word less: answer 18, added 0, removed 0, length 0, rest as lent 1
commit in another order: answer 18, added 0, removed 0, length 0, rest as lent 1
commit with the runs exchanged: answer 18, added 0, removed 0, length 0, rest as lent 1
commit once the class is there: answer 18, added 0, removed 0, length 0, rest as lent 1
commit to a short output: answer 13, added 0, removed 0, length 0, rest as lent 1
commit what is guarded: answer 8, added 0, removed 0, length 0, rest as lent 1
ask what is there already: answer 0, added 0, removed 0, above 0, rest as lent 1
ask what is guarded: answer 8, added 0, removed 0, above 0, rest as lent 1
ask nothing: answer 4, added 0, removed 0, above 0, rest as lent 1
ask, all empty: answer 12, added 0, removed 0, above 0, rest as lent 1
commit, all empty: answer 12, added 0, removed 0, length 0, rest as lent 1
commit what is there already: answer 0, added 0, removed 0, length 89, rest as lent 1
the image is the old one: 1
";

/// A file of the host's folder.
fn host_file(name: &str) -> PathBuf {
    Path::new(env!("CARGO_MANIFEST_DIR")).join(name)
}

fn text_of(name: &str) -> String {
    fs::read_to_string(host_file(name)).expect("the file is there")
}

/// The archive that the tests are linked with.
fn archive() -> PathBuf {
    let folder = env::var_os("VIMELOSA_ARCHIVE_DIR");
    folder.map_or_else(|| host_file("../target/staticlib"), PathBuf::from).join("libvimelosa.a")
}

/// A compiler and the language that it is told to take.
struct Compiler {
    command: &'static str,
    language: &'static str,
    standard: &'static str,
}

const C: Compiler = Compiler { command: "cc", language: "c", standard: "-std=c99" };
const CPP: Compiler = Compiler { command: "c++", language: "c++", standard: "-std=c++11" };

impl Compiler {
    fn is_there(&self) -> bool {
        let mut asked = Command::new(self.command);
        asked.arg("--version").stdout(Stdio::null()).stderr(Stdio::null());
        asked.status().map_or(false, |status| status.success())
    }

    /// Every warning is an error, and the compiler says nothing.
    fn compile<S: AsRef<OsStr>>(&self, words: impl IntoIterator<Item = S>) {
        let mut command = Command::new(self.command);
        command.arg(self.standard).args(STRICT).arg("-I").arg(host_file("include"));
        let done = command.args(words).output().expect("the compiler starts");
        let said = String::from_utf8_lossy(&done.stderr);
        assert!(done.status.success() && said.is_empty(), "{} {}: {said}", self.command, done.status);
    }

    /// The header twice in a file of its own.
    fn compile_header(&self) {
        let source = built(&format!("header-{}", self.language));
        fs::write(&source, "#include \"vimelosa.h\"\n#include \"vimelosa.h\"\n").expect("a new file");
        let words = ["-fsyntax-only", "-x", self.language].map(OsStr::new);
        self.compile(words.into_iter().chain([source.as_os_str()]));
    }

    /// What a program prints that is compiled with these words more.
    fn printed(&self, name: &str, words: &[&str]) -> String {
        let program = built(&format!("{name}-{}", self.language));
        let source = host_file(&format!("tests/c_interface/{name}.c"));
        let archive = archive();
        let files = [
            OsStr::new("-x"),
            OsStr::new(self.language),
            source.as_os_str(),
            OsStr::new("-x"),
            OsStr::new("none"),
            archive.as_os_str(),
            OsStr::new("-o"),
            program.as_os_str(),
        ];
        self.compile(words.iter().map(OsStr::new).chain(files));
        let ended = Command::new(&program).output().expect("the program starts");
        assert!(ended.status.success(), "{}", ended.status);
        String::from_utf8(ended.stdout).expect("the program prints text")
    }

    /// The programs print what they should.
    fn run_programs(&self) {
        for (name, expected) in [("plant", PRINTED), ("preview", PREVIEW_PRINTED)] {
            let printed = self.printed(name, &[]);
            assert_eq!(printed.lines().collect::<Vec<_>>(), expected.lines().collect::<Vec<_>>());
        }
    }
}

/// A file in the folder that cargo has for what tests make.
fn built(name: &str) -> PathBuf {
    Path::new(env!("CARGO_TARGET_TMPDIR")).join(name)
}

#[test]
fn programs_in_c_call_by_the_header() {
    C.run_programs();
}

#[test]
fn the_header_compiles_alone_as_c() {
    C.compile_header();
}

/// The calls that README has with their bytes of stack, in its order.
fn stack_of_readme() -> Vec<(String, u64)> {
    let readme = text_of("../README.md");
    let (_, section) = readme.split_once("## Stack\n").expect("README has the section");
    let row = |line: &str| {
        let cells: Vec<&str> = line.split('|').map(str::trim).collect();
        match cells[..] {
            ["", call, bytes, ..] => {
                Some((call.trim_matches('`').to_string(), bytes.replace(',', "").parse().ok()?))
            }
            _ => None,
        }
    };
    section.lines().take_while(|line| !line.starts_with("## ")).filter_map(row).collect()
}

/// No call takes more than README says, nor less by 256 bytes or more.
#[test]
fn the_calls_take_the_stack_that_readme_says() {
    let said = stack_of_readme();
    let printed = C.printed("stack", &["-O2", "-pthread"]);
    let lines: Vec<Vec<&str>> = printed.lines().map(|line| line.split(' ').collect()).collect();
    assert_eq!(lines.len(), said.len());
    for (line, (call, most)) in lines.iter().zip(said) {
        let bytes: u64 = line[2].parse().expect("a number");
        let is_too_many = ["vimelosa_apply", "vimelosa_ask", "vimelosa_commit"].contains(&call.as_str());
        let answer = if is_too_many { "11" } else { "0" };
        assert_eq!(line[..2], [call.as_str(), answer]);
        assert!(bytes <= most && most - bytes < 256, "{call} takes {bytes} bytes, README says {most}");
    }
}

/// Where there is a compiler for it, the header alone and the programs.
#[test]
fn the_header_and_the_programs_compile_as_cpp() {
    if CPP.is_there() {
        CPP.compile_header();
        CPP.run_programs();
    }
}

/// The header says so to those who have no C library.
#[test]
fn the_archive_needs_memcpy_and_memset_alone() {
    let listed = Command::new("nm").arg("-u").arg(archive()).output().expect("nm comes with cc");
    let listed = String::from_utf8(listed.stdout).expect("nm prints text");
    let needed: Vec<&str> = listed.lines().filter_map(|line| line.trim().strip_prefix("U ")).collect();
    assert_eq!(needed, ["memcpy", "memset"]);
}

/// What stands in the header after a text and before the next `}`.
fn header_after(text: &str) -> String {
    let header = text_of("include/vimelosa.h");
    let (_, after) = header.split_once(text).expect("the header has the text");
    after.split_once('}').expect("there is an end").0.to_string()
}

/// The names and numbers of an enumeration of the header, in its order.
fn numbers_of_header(enumeration: &str) -> Vec<(String, u16)> {
    let numbers = header_after(&format!("enum vimelosa_{enumeration} {{"));
    let named = numbers.lines().filter_map(|line| line.trim().strip_prefix("VIMELOSA_"));
    let pair = |line: &str| {
        let (name, number) = line.split_once(" = ").expect("a name has a number");
        (name.to_string(), number.trim_end_matches(',').parse().expect("a number"))
    };
    named.map(pair).collect()
}

/// The numbers of docs/REFUSALS.md, and the names of their definitions, as the header spells them.
fn refusals_of_document() -> Vec<(String, u16)> {
    let document = text_of("../docs/REFUSALS.md");
    let row = |line: &str| {
        let cells: Vec<&str> = line.split('|').map(str::trim).collect();
        match cells[..] {
            ["", number, definition, ..] => {
                Some((definition.trim_matches('`').to_uppercase(), number.parse().ok()?))
            }
            _ => None,
        }
    };
    document.lines().filter_map(row).collect()
}

#[test]
fn the_refusals_of_the_header_are_those_of_the_document() {
    let refusals = numbers_of_header("refusal");
    let numbers: Vec<u16> = refusals.iter().map(|(_, number)| *number).collect();
    assert_eq!(numbers, (1..=18).collect::<Vec<u16>>());
    assert_eq!(refusals, refusals_of_document());
}

#[test]
fn the_kinds_of_the_header_are_those_of_rust() {
    let kinds = Kind::ALL.map(|kind| (kind.to_string().to_uppercase(), u16::from(kind.number())));
    assert_eq!(numbers_of_header("kind"), kinds);
}

#[test]
fn the_fresh_image_of_the_header_is_that_of_rust() {
    let bytes = header_after("#define VIMELOSA_FRESH_IMAGE {").replace(['\\', '\n', ' '], "");
    let image: Vec<u8> = bytes.split(',').map(|byte| byte.parse().expect("a byte")).collect();
    assert_eq!(image, Graph::fresh().image());
}

#[test]
fn the_sizes_of_the_header_are_those_of_rust() {
    let header = text_of("include/vimelosa.h");
    let sizes = [
        ("LONGEST_IMAGE", LONGEST_IMAGE),
        ("MOST_FACTS", MOST_FACTS),
        ("LONGEST_LINE", LONGEST_LINE),
        ("LONGEST_TEXT", LONGEST_TEXT),
        ("TICKET", 5),
    ];
    for (name, size) in sizes {
        let line = format!("#define VIMELOSA_{name} {size}");
        assert!(header.lines().any(|other| other == line), "{line}");
    }
}

#[test]
fn the_header_and_the_programs_keep_to_110_columns() {
    let programs = ["plant", "preview", "stack"].map(|name| format!("tests/c_interface/{name}.c"));
    for name in programs.iter().map(String::as_str).chain(["include/vimelosa.h"]) {
        let long = text_of(name).lines().position(|line| line.chars().count() > 110);
        assert_eq!(long, None, "in {name}");
    }
}
