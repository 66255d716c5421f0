//! The part of the report on texts of N-Triples.

use crate::settings::Settings;
use crate::subjects::Subject;
use crate::tables::{filled, laid_out, shown, table, Unit};
use crate::texts::Text;
use crate::triples;
use crate::triples_programs::{self, Times, PARSE_AND_SERIALIZE, PARSE_TEXT, PROCESSES, READ, SERDI, WRITE};

/// Where a process is not installed.
const MISSING: &str = "not installed";

/// The calls.
const CALLS: &str =
    "The calls across C that write and read a graph as a text of N-Triples. To write, an image is read and \
     checked, and the text of its graph is written. To read, every line of a text is held to the profile, \
     the graph is checked, and its image is written; a literal in no value has no line, so the text does not \
     tell it. `longest` is the longest text of any graph: 254 properties from Resource to Resource, and \
     1,285 links among them. `shuffled`: the same lines in another order. The rivals share the code that \
     writes and reads lines, and differ in the check. By the wall clock, as the host call.";

/// The processes.
const PROGRAMS: &str =
    "As processes that read a file, by their processor time, their output thrown away while the clock runs: \
     the proved programs `write_triples`, from an image to a text, and `read_triples`, from a text to an \
     image; serd's command `serdi`, from a text to a text; rdflib under Python, which parses a text, and \
     which parses and serializes it. Their work is not the same. `serdi` parses and prints any N-Triples and \
     keeps nothing. rdflib keeps a graph of any N-Triples and checks no rule of it. The proved programs take \
     the lines of the profile and at most 2,048 facts, and check every rule of the graph, both of them. What \
     they print is compared in the run, byte by byte; of rdflib, which has an order of its own, the number \
     of triples and the lines.";

/// The processes beside each other.
const RATIOS: &str =
    "Ratios of these times, and of what is left of them without those on one line, which are nearly all the \
     start of the process. `both` is `read_triples` and `write_triples` together, from a text to a text.";

/// What is compared, by the places of the processes: the sum of the first with the second.
const COMPARED: [(&str, &[usize], usize); 4] = [
    ("read_triples / serdi", &[READ], SERDI),
    ("read_triples / rdflib parse", &[READ], PARSE_TEXT),
    ("both / serdi", &[READ, WRITE], SERDI),
    ("both / rdflib parse, serialize", &[READ, WRITE], PARSE_AND_SERIALIZE),
];

/// Measures the plants' texts and the longest.
pub fn part(settings: &Settings, plants: &[Subject]) -> String {
    let mut texts: Vec<Text> = plants.iter().map(Text::of_subject).collect();
    texts.push(Text::longest());
    let full = &texts[texts.len() - 2..];
    let shuffled: Vec<Text> = full.iter().map(Text::shuffled).collect();
    let read: Vec<&Text> = texts.iter().chain(&shuffled).collect();
    let calls = triples::measure(settings, &texts, &read);
    format!(
        "\n## Texts of N-Triples\n\n{}\n{}\n{}\n{}\n{}",
        filled(CALLS),
        sizes(&texts),
        table("text written", Unit::Microseconds, &calls.written),
        table("text read", Unit::Microseconds, &calls.read),
        programs_part(settings, full)
    )
}

fn sizes(texts: &[Text]) -> String {
    let mut rows = vec![["text of", "facts told", "lines", "bytes"].map(String::from).to_vec()];
    rows.extend(texts.iter().map(|text| {
        let numbers =
            [text.facts_told, text.lines().count(), text.text.len()].map(|number| number.to_string());
        [vec![text.name.clone()], numbers.to_vec()].concat()
    }));
    laid_out(&rows)
}

fn programs_part(settings: &Settings, full: &[Text]) -> String {
    let fresh = Text::fresh();
    let texts: Vec<&Text> = [&fresh].into_iter().chain(full).collect();
    let measured = triples_programs::measure(settings, &texts);
    let version = |name: &str, known: &Option<String>| match known {
        Some(version) => format!("{name} {version}"),
        None => format!("{name} is not installed"),
    };
    let versions = [version("serdi", &measured.serdi), version("rdflib", &measured.rdflib)].join(", ");
    format!(
        "{}\n{}\n{}\n{}",
        filled(&format!("{PROGRAMS} Here: {versions}.")),
        times(&texts, &measured.times),
        filled(RATIOS),
        ratios(&texts, &measured.times)
    )
}

fn times(texts: &[&Text], times: &[Times]) -> String {
    let heads = std::iter::once("process on").chain(PROCESSES.iter().map(|process| process.name));
    let mut rows = vec![heads.map(String::from).collect()];
    let cell = |time: &Option<f64>| time.map_or(MISSING.to_string(), |time| shown(Unit::Microseconds, time));
    for (text, times) in texts.iter().zip(times) {
        rows.push(std::iter::once(text.name.clone()).chain(times.iter().map(cell)).collect::<Vec<_>>());
    }
    laid_out(&rows)
}

/// A row for each comparison, with two columns for each text but the first, which is that of one line.
fn ratios(texts: &[&Text], times: &[Times]) -> String {
    let mut heads = vec!["ratio".to_string()];
    let mut columns = Vec::new();
    for (text, whole) in texts.iter().zip(times).skip(1) {
        heads.extend([text.name.clone(), "without start".to_string()]);
        columns.extend([*whole, less(whole, &times[0])]);
    }
    let mut rows = vec![heads];
    for (name, own, other) in COMPARED {
        let cells = columns.iter().map(|times| ratio(times, own, other));
        rows.push(std::iter::once(name.to_string()).chain(cells).collect());
    }
    laid_out(&rows)
}

fn less(whole: &Times, start: &Times) -> Times {
    let mut left = *whole;
    for (time, start) in left.iter_mut().zip(start) {
        *time = time.zip(*start).map(|(time, start)| time - start);
    }
    left
}

fn ratio(times: &Times, own: &[usize], other: usize) -> String {
    let own: Option<f64> = own.iter().map(|place| times[*place]).sum();
    let ratio = own.zip(times[other]).map(|(own, other)| own / other);
    ratio.map_or(MISSING.to_string(), |ratio| format!("{ratio:.3}"))
}
