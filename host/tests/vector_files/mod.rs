//! The vectors of the repository's tests/vectors, taken from their files.

// Each test uses its own share of this module.
#![allow(dead_code)]

/// A case of the W3C suites: tickets on a fresh table, their answer numbers, and words that are there or not
/// at the end.
pub struct SuiteCase {
    pub name: &'static str,
    pub list: Vec<u8>,
    pub present: Vec<u32>,
    pub absent: Vec<u32>,
    pub numbers: Vec<u8>,
}

/// A worked example of a paper: tickets on a fresh table or on the paper's database D.
pub struct PaperCase {
    pub name: &'static str,
    pub from_database: bool,
    pub list: Vec<u8>,
    /// Answer, added and removed of each ticket; none where the source says only that all are accepted.
    pub answers: Option<Vec<[usize; 3]>>,
    pub facts: Option<usize>,
}

/// Tickets on a fresh table of so many words, the answer, added and removed of each, and the words left.
pub struct TicketCase {
    pub name: &'static str,
    pub words: usize,
    pub list: Vec<u8>,
    pub answers: Vec<[usize; 3]>,
    pub left: Vec<u32>,
}

/// Operators' tickets on a table on which the plain call ran others before, all of them accepted.
pub struct OperatorCase {
    pub before: Vec<u8>,
    /// The operators' tickets; the last may be short of a record.
    pub case: TicketCase,
}

/// A ticket asked about or committed on a table of so many words, fresh at first, on which the plain call ran
/// others before, all of them accepted.
pub struct PreviewCase {
    pub name: &'static str,
    pub words: usize,
    pub before: Vec<u8>,
    pub ticket: Vec<u8>,
    pub call: PreviewCall,
    /// Answer, added and removed.
    pub answer: [usize; 3],
}

/// What one of the two calls is lent or handed: first the added run, then the removed run.
pub enum PreviewCall {
    /// Runs of so many words, and the words written to their fronts.
    Ask { lent: [usize; 2], written: [Vec<u32>; 2] },
    /// The words of the runs.
    Commit { runs: [Vec<u32>; 2] },
}

/// A call for triples: what it is given, what it is lent, its answer, and what it leaves if that is 0.
pub enum TriplesCase {
    /// A text into so many words.
    Read { name: &'static str, text: Vec<u8>, lent: usize, answer: u8, words: Vec<u32> },
    /// The words of a table's facts as text to so many bytes.
    Write { name: &'static str, words: Vec<u32>, lent: usize, answer: u8, text: Vec<u8> },
}

/// A call for tables and images: what it is given, what it is lent, its answer, and what it leaves.
pub enum ImageCase {
    /// The words of a table, with zeros to so many; after a 3, the first rule that is broken.
    Check { name: &'static str, words: Vec<u32>, lent: usize, answer: u8, broken: Option<&'static str> },
    /// The words of a table's facts to an image of so many bytes.
    Write { name: &'static str, words: Vec<u32>, lent: usize, answer: u8, image: Vec<u8> },
    /// An image into so many words.
    Read { name: &'static str, image: Vec<u8>, lent: usize, answer: u8, words: Vec<u32> },
    /// The body of a kind: the place where the part starts, and its bytes.
    Body { name: &'static str, image: Vec<u8>, kind: u8, start: usize, part: Vec<u8> },
}

/// A file of the W3C N-Triples suite, and the answer of reading it into 2,048 words.
pub struct NTriplesFile {
    pub name: &'static str,
    pub text: Vec<u8>,
    pub answer: u8,
}

pub fn suite_cases() -> Vec<SuiteCase> {
    lines(include_str!("../../../tests/vectors/w3c.tsv"))
        .map(|columns| SuiteCase {
            name: columns[0],
            list: tickets(columns[1]),
            present: words(columns[2]),
            absent: words(columns[3]),
            numbers: parts(columns[4]).map(number).map(|n| n as u8).collect(),
        })
        .collect()
}

pub fn paper_cases() -> Vec<PaperCase> {
    lines(include_str!("../../../tests/vectors/papers.tsv"))
        .map(|columns| PaperCase {
            name: columns[0],
            from_database: columns[1] == "D",
            list: tickets(columns[2]),
            answers: some(columns[3]).map(|text| parts(text).map(answer).collect()),
            facts: some(columns[4]).map(number),
        })
        .collect()
}

pub fn class_cases() -> Vec<TicketCase> {
    ticket_cases(include_str!("../../../tests/vectors/classes.tsv"))
}

pub fn exclusive_cases() -> Vec<TicketCase> {
    ticket_cases(include_str!("../../../tests/vectors/exclusive.tsv"))
}

fn ticket_cases(text: &'static str) -> Vec<TicketCase> {
    lines(text).map(|columns| ticket_case(&columns)).collect()
}

fn ticket_case(columns: &[&'static str]) -> TicketCase {
    TicketCase {
        name: columns[0],
        words: number(columns[1]),
        list: tickets(columns[2]),
        answers: parts(columns[3]).map(answer).collect(),
        left: words(columns[4]),
    }
}

/// The tickets of the plain call are a column more before those of the operators.
pub fn operator_cases() -> Vec<OperatorCase> {
    lines(include_str!("../../../tests/vectors/operators.tsv"))
        .map(|mut columns| {
            let before = some(columns.remove(2)).map_or(Vec::new(), tickets);
            OperatorCase { before, case: ticket_case(&columns) }
        })
        .collect()
}

pub fn preview_cases() -> Vec<PreviewCase> {
    lines(include_str!("../../../tests/vectors/previews.tsv"))
        .map(|columns| PreviewCase {
            name: columns[0],
            words: number(columns[1]),
            before: some(columns[2]).map_or(Vec::new(), tickets),
            ticket: some(columns[4]).map_or(Vec::new(), bytes),
            call: preview_call(columns[3], columns[5], columns[7]),
            answer: answer(columns[6]),
        })
        .collect()
}

fn preview_call(name: &str, given: &str, written: &str) -> PreviewCall {
    match name {
        "ask" => {
            let (added, removed) = given.split_once(' ').expect("two lengths");
            PreviewCall::Ask { lent: [added, removed].map(number), written: runs(written) }
        }
        "commit" => PreviewCall::Commit { runs: runs(given) },
        other => panic!("there is no call {other}"),
    }
}

pub fn image_cases() -> Vec<ImageCase> {
    lines(include_str!("../../../tests/vectors/images.tsv"))
        .map(|columns| {
            let (name, given, left) = (columns[0], columns[2], columns[5]);
            let (lent, found) = (number(columns[3]), number(columns[4]));
            let (kind, answer) = (lent as u8, found as u8);
            match columns[1] {
                "check" => ImageCase::Check { name, words: words(given), lent, answer, broken: some(left) },
                "write" => ImageCase::Write { name, words: words(given), lent, answer, image: image(left) },
                "read" => ImageCase::Read { name, image: image(given), lent, answer, words: words(left) },
                "body" => {
                    ImageCase::Body { name, image: image(given), kind, start: found, part: image(left) }
                }
                other => panic!("there is no call {other}"),
            }
        })
        .collect()
}

pub fn triples_cases() -> Vec<TriplesCase> {
    lines(include_str!("../../../tests/vectors/triples.tsv"))
        .map(|columns| {
            let (name, lent, answer) = (columns[0], number(columns[3]), number(columns[4]) as u8);
            let (given, left) = (columns[2], columns[5]);
            match columns[1] {
                "read" => TriplesCase::Read { name, text: text(given), lent, answer, words: words(left) },
                "write" => TriplesCase::Write { name, words: words(given), lent, answer, text: text(left) },
                other => panic!("there is no call {other}"),
            }
        })
        .collect()
}

pub fn ntriples_files() -> Vec<NTriplesFile> {
    lines(include_str!("../../../tests/vectors/w3c-ntriples.tsv"))
        .map(|columns| NTriplesFile {
            name: columns[0],
            text: text(columns[2]),
            answer: number(columns[3]) as u8,
        })
        .collect()
}

/// The tickets that make the paper's database D.
pub fn database() -> Vec<u8> {
    paper_cases().remove(0).list
}

/// The columns of each line that is no comment.
fn lines(text: &'static str) -> impl Iterator<Item = Vec<&'static str>> {
    let cases = text.lines().filter(|line| !line.starts_with('#'));
    cases.map(|line| line.split('\t').collect())
}

/// A column, unless it is a minus sign.
fn some(column: &str) -> Option<&str> {
    (column != "-").then_some(column)
}

fn parts(column: &str) -> impl Iterator<Item = &str> {
    column.split(',')
}

fn number(text: &str) -> usize {
    text.parse().expect("a decimal number")
}

fn answer(text: &str) -> [usize; 3] {
    let numbers: Vec<usize> = text.split(' ').map(number).collect();
    numbers.try_into().expect("three numbers")
}

fn tickets(column: &str) -> Vec<u8> {
    parts(column).flat_map(bytes).collect()
}

/// The bytes of a hexadecimal text.
pub fn bytes(text: &str) -> Vec<u8> {
    let pair = |at: usize| u8::from_str_radix(&text[at..at + 2], 16).expect("two digits");
    (0..text.len()).step_by(2).map(pair).collect()
}

/// The bytes of an image, or of a part of it.
fn image(column: &str) -> Vec<u8> {
    some(column).map_or(Vec::new(), bytes)
}

fn words(column: &str) -> Vec<u32> {
    let word = |text: &str| u32::from_str_radix(text, 16).expect("a hexadecimal word");
    some(column).map_or(Vec::new(), |text| parts(text).map(word).collect())
}

/// The words of the added run and of the removed run.
fn runs(column: &str) -> [Vec<u32>; 2] {
    let (added, removed) = column.split_once('/').expect("two runs");
    [added, removed].map(words)
}

/// The bytes of a text, as the head of triples.tsv describes it.
fn text(column: &str) -> Vec<u8> {
    let mut bytes = Vec::new();
    let mut rest = some(column).unwrap_or("");
    while let Some(next) = rest.chars().next() {
        let (length, meant) = match next {
            '\\' => escaped(rest),
            '{' => named(rest),
            _ => (1, vec![rest.as_bytes()[0]]),
        };
        bytes.extend(meant);
        rest = &rest[length..];
    }
    bytes
}

/// How long an escape is, and the byte that it stands for.
fn escaped(text: &str) -> (usize, Vec<u8>) {
    match &text[1..2] {
        "n" => (2, vec![b'\n']),
        "r" => (2, vec![b'\r']),
        "t" => (2, vec![b'\t']),
        "\\" => (2, vec![b'\\']),
        "x" => (4, bytes(&text[2..4])),
        other => panic!("there is no escape {other}"),
    }
}

/// How long a name in braces is, and the bytes that it stands for.
fn named(text_from: &str) -> (usize, Vec<u8>) {
    let end = text_from.find('}').expect("the brace is closed");
    let name = &text_from[1..end];
    let meant = match name {
        "plant" => text(&PLANT.concat()),
        "type" => format!("<http://www.w3.org/1999/02/22-rdf-syntax-ns#{name}>").into_bytes(),
        "P" => b"<http://www.w3.org/1999/02/22-rdf-syntax-ns#Property>".to_vec(),
        "R" => b"<http://www.w3.org/2000/01/rdf-schema#Resource>".to_vec(),
        "L" => b"<http://www.w3.org/2000/01/rdf-schema#Literal>".to_vec(),
        "excl" => b"<urn:mark:excl>".to_vec(),
        "C" => b"<http://www.w3.org/2000/01/rdf-schema#Class>".to_vec(),
        "subClassOf" | "subPropertyOf" | "domain" | "range" => {
            format!("<http://www.w3.org/2000/01/rdf-schema#{name}>").into_bytes()
        }
        _ => panic!("there is no name {name}"),
    };
    (end + 1, meant)
}

/// The lines of the table that P1 to P7 of document 01 leave.
const PLANT: [&str; 13] = [
    "{R} {type} {C} .\\n",
    "<urn:id:2> {type} {C} .\\n",
    "<urn:id:3> {type} {C} .\\n",
    "<urn:id:5> {type} {P} .\\n",
    "<urn:id:2> {subClassOf} {R} .\\n",
    "<urn:id:3> {subClassOf} {R} .\\n",
    "<urn:id:3> {subClassOf} <urn:id:2> .\\n",
    "<urn:id:5> {domain} <urn:id:2> .\\n",
    "<urn:id:5> {range} {L} .\\n",
    "<urn:id:4> {type} {R} .\\n",
    "<urn:id:6> {type} {R} .\\n",
    "<urn:id:6> {type} <urn:id:2> .\\n",
    "<urn:id:6> <urn:id:5> \"7\" .\\n",
];
