//! The report: what is measured, in tables.

use crate::candidates::NAMES;
use crate::checks::{self, Checked};
use crate::exclusive;
use crate::growth::{picture, Curve};
use crate::host_calls;
use crate::list_calls;
use crate::lists;
use crate::previews;
use crate::programs;
use crate::settings::Settings;
use crate::sqlite;
use crate::subjects::{Subject, SIZES};
use crate::tables::{filled, laid_out, shown, table, table_of, Line, Unit};
use crate::triples_report;
use std::{fs, slice};

/// The tickets of the host calls.
const TICKETS: &str =
    "An image is read and checked, a ticket applied, the new image written. The tickets: a \
                       new individual in a class, which leaves the graph with the facts stated; the same \
                       again; an unused byte that is not 0 (7); a class link that closes a circle (10); the \
                       deletion of an individual. The mean is of these five. Beside them a member of a class \
                       that the graph lacks (16).";

/// The graphs of exclusive properties.
const EXCLUSIVE: &str =
    "The same of graphs of 200 properties with domain and range Resource, of which none, some or all are \
     exclusive, and 400 or 1,000 values, each of them with one individual for its property. What rule E2 \
     takes is to grow with the sum of the exclusive properties and the values, not with their product.";

/// The lists for program one.
const LISTS: &str =
    "As a process that reads a file; its output is thrown away while the clock runs. `mostly \
                     bad`: kinds 1 to 10 and ids 0 to 31 drawn freely. `plants`: plants that fill a table of \
                     2,048 words, each taken down ticket by ticket. `plants, filled`: the same, but cleared \
                     by deleting each id. `dense`: insertions and deletions among 31 ids.";

/// The list call on the first tickets of the lists.
const LIST_CALLS: &str =
    "One call across C: an image is read and checked, 1,000 tickets are run, their answers and the new image \
     written. Ten calls from the fresh image on, each on the image that the one before put out, run the \
     first 10,000 tickets of each list of program one. As many readings as of a process, by the wall clock.";

/// Single calls on the same tickets.
const SINGLE_CALLS: &str =
    "The same tickets by single calls, 1,000 in place of each list call, each on the image that the one \
     before put out. Time for one ticket:";

/// Operators' tickets through their list call.
const OPERATORS: &str =
    "Ten calls of 1,000 operators' tickets each, on the image of a plant's class tree and properties: the \
     plant's members, values and literals in any order, which fill a table of 2,048 words, then their \
     deletions, and again. By the operators' list call and by the plain one. Time for one ticket:";

/// The list call on the whole lists.
const WHOLE_LISTS: &str =
    "The whole lists through the list call, 1,000 tickets to a call as above, beside program one: each as a \
     process that reads the file, by its processor time, the start of the process within it. Time for one \
     ticket:";

/// The work that SQLite does.
const SQLITE_WORK: &str = "A smaller piece of work than program one's: insertions of good form only, by \
                           triggers that carry the side effects, in one transaction on a database in memory, \
                           through the command `sqlite3`. No deletion, no bound of 2,048 facts, no answers \
                           printed. Each ticket is a statement of its own. The table at the end is the same. \
                           Least of three runs, the start of the process taken off.";

/// The report and the picture.
pub struct Report {
    pub text: String,
    pub picture: String,
}

/// Measures everything once.
pub fn measure(settings: &Settings) -> Report {
    let mut text = head(settings);
    let subjects: Vec<Subject> = std::iter::once(Subject::paper()).chain(SIZES.map(Subject::plant)).collect();
    let graphs = host_calls::measure(settings, &subjects);
    let plants = &graphs[1..];
    text += &host_calls_part(&graphs);
    text += &previews::part(settings, &subjects[1..]);
    text += &checks_part(settings, &subjects, &graphs);
    let curves = curves_of(plants, |measured| &measured.mean);
    text += &growth_part(&curves, plants);
    let lists = lists_of(settings);
    let programs = programs::measure(settings, &lists);
    text += &programs_part(&programs);
    text += &list_calls_part(&list_calls::measure(settings, &lists[..lists.len() - 1]), &programs);
    text += &operators_part(settings);
    text += &triples_report::part(settings, &subjects[1..]);
    text += &sqlite_part(settings);
    Report { text, picture: picture("One host call, mean of five tickets", &curves) }
}

fn head(settings: &Settings) -> String {
    let cpu = fs::read_to_string("/proc/cpuinfo").unwrap_or_default();
    let model = cpu.lines().find_map(|line| line.strip_prefix("model name")).unwrap_or(": unknown");
    let model = model.trim_start_matches([' ', '\t', ':']);
    let Settings { slices, processes, slice, .. } = settings;
    let method = format!(
        "Written by `cargo bench --offline -- --write` in `host/`. Processor: {model}. Times are medians: of \
         {slices} readings of a host call by the wall clock (each {slice:?} of calls) and {processes} of a \
         process by its processor time. The candidates take turns within each repetition, and each \
         repetition starts with another one; a ratio is the median of the repetitions' ratios, that of a \
         mean the ratio of the means. All answers, outputs and tables are compared in the run."
    );
    format!(
        "# Benchmark\n\n{}\n- `proved`: the library behind the C interface, and program one.\n- `sorted`: \
         plain safe Rust, the words sorted in a `Vec` and searched.\n- `bit rows`: plain safe Rust, sets of \
         256 bits, written for speed.\n",
        filled(&method)
    )
}

fn host_calls_part(graphs: &[host_calls::Measured]) -> String {
    let mut lines = Vec::new();
    for measured in graphs {
        lines.extend(measured.calls.iter().cloned());
        lines.push(measured.mean.clone());
    }
    let table = table("host call", Unit::Microseconds, &lines);
    format!("\n## The host call\n\n{}\n{table}", filled(TICKETS))
}

fn checks_part(settings: &Settings, subjects: &[Subject], graphs: &[host_calls::Measured]) -> String {
    let read: Vec<Line> = graphs.iter().map(|measured| measured.read_and_check.clone()).collect();
    let subjects: Vec<Checked> = subjects.iter().map(Checked::of_subject).collect();
    format!(
        "\n## The check\n\nThe check of a table of 2,048 words: a process reads an image and checks its \
         table 5,000 times.\n\n{}\n{}\n{}\nThe host call with an empty ticket reads the image and checks \
         the graph before it refuses (4).\n\n{}",
        table("check", Unit::Microseconds, &checks::measure(settings, &subjects)),
        filled(EXCLUSIVE),
        table("check", Unit::Microseconds, &checks::measure(settings, &exclusive::graphs())),
        table("read and check", Unit::Microseconds, &read)
    )
}

/// The curves of one line of each graph.
fn curves_of(graphs: &[host_calls::Measured], line_of: fn(&host_calls::Measured) -> &Line) -> Vec<Curve> {
    let sizes: Vec<usize> = graphs.iter().map(|measured| measured.facts).collect();
    let times: Vec<Vec<f64>> = graphs.iter().map(|measured| line_of(measured).times.clone()).collect();
    Curve::each(&sizes, &times)
}

fn growth_part(curves: &[Curve], plants: &[host_calls::Measured]) -> String {
    let checks = curves_of(plants, |measured| &measured.read_and_check);
    let row = |work: &str, curves: &[Curve]| {
        let exponents = curves.iter().map(|curve| format!("{:.2}", curve.exponent()));
        std::iter::once(work.to_string()).chain(exponents).collect::<Vec<_>>()
    };
    let heads = std::iter::once("exponent").chain(NAMES).map(String::from).collect();
    let rows = [heads, row("mean of the five tickets", curves), row("read and check", &checks)];
    format!(
        "\n## Growth\n\nThe exponent of the time over the number of facts, {} to {}: least squares of the \
         logarithms.\n\n{}\n![Growth of the host call](growth.svg)\n",
        plants[0].facts,
        plants[plants.len() - 1].facts,
        laid_out(&rows)
    )
}

/// The lists for program one, and last no tickets at all.
fn lists_of(settings: &Settings) -> [(&'static str, Vec<u8>); 5] {
    [
        ("mostly bad", lists::mostly_bad(1_000_000 / settings.share)),
        ("plants", lists::plants(200_000 / settings.share)),
        ("plants, filled", lists::filled_plants(200_000 / settings.share)),
        ("dense", lists::dense(400_000 / settings.share)),
        ("start of the process", Vec::new()),
    ]
}

fn programs_part(measured: &[programs::Measured]) -> String {
    let (start, measured) = measured.split_last().expect("the last list is empty");
    let mut rows = vec![["list", "tickets", "accepted"].map(String::from).to_vec()];
    rows.extend(measured.iter().map(|m| counts(&m.line, &[m.tickets, m.accepted])));
    let lines: Vec<Line> = measured.iter().map(|m| m.line.clone()).collect();
    format!(
        "\n## Program one\n\n{}\n{}\nTime for one ticket:\n\n{}\nTime to start and end without tickets, \
         which is within the times above:\n\n{}",
        filled(LISTS),
        laid_out(&rows),
        table("list", Unit::Nanoseconds, &lines),
        table("process", Unit::Microseconds, slice::from_ref(&start.line))
    )
}

/// A row of numbers about a line's work.
fn counts(line: &Line, numbers: &[usize]) -> Vec<String> {
    let numbers = numbers.iter().map(|number| number.to_string());
    std::iter::once(line.work.clone()).chain(numbers).collect()
}

fn list_calls_part(measured: &[list_calls::Measured], programs: &[programs::Measured]) -> String {
    let mut rows = vec![["list", "tickets", "accepted", "facts at the end"].map(String::from).to_vec()];
    rows.extend(measured.iter().map(|m| counts(&m.list_calls, &[m.tickets, m.accepted, m.facts])));
    let list_calls: Vec<Line> = measured.iter().map(|m| m.list_calls.clone()).collect();
    let single_calls: Vec<Line> = measured.iter().map(|m| m.single_calls.clone()).collect();
    let (_, programs) = programs.split_last().expect("the last list is empty");
    let whole_lists: Vec<Line> = programs.iter().map(|m| m.list_calls.clone()).collect();
    format!(
        "\n## The list call\n\n{}\n{}\nTime for one ticket:\n\n{}\n{}\n{}\n{}\n{}",
        filled(LIST_CALLS),
        laid_out(&rows),
        table("list", Unit::Nanoseconds, &list_calls),
        filled(SINGLE_CALLS),
        table_of("list", &["single calls", "list call"], Unit::Nanoseconds, &single_calls),
        filled(WHOLE_LISTS),
        table_of("list", &["list call", "program one"], Unit::Nanoseconds, &whole_lists),
    )
}

fn operators_part(settings: &Settings) -> String {
    let line = list_calls::measure_operators(settings, &lists::shifts(10_000));
    let names = ["operators' list call", "list call"];
    format!(
        "\n{}\n{}",
        filled(OPERATORS),
        table_of("list", &names, Unit::Nanoseconds, slice::from_ref(&line))
    )
}

fn sqlite_part(settings: &Settings) -> String {
    let head = "\n## SQLite\n\n";
    if !sqlite::is_installed() {
        return format!("{head}The command `sqlite3` is not installed: not measured.\n");
    }
    let most = 4000 / settings.share;
    let plant = lists::plants(1);
    let plant = sqlite::insertions(&plant, most);
    let dense = sqlite::insertions(&lists::dense(2 * most), most);
    let mut rows =
        vec![["insertions of", "tickets", "facts at the end", "a ticket"].map(String::from).to_vec()];
    for (name, tickets) in [("the first plant", plant), ("dense", dense)] {
        let m = sqlite::measure(name, &tickets);
        let time = shown(Unit::Microseconds, m.time);
        rows.push(vec![name.to_string(), m.tickets.to_string(), m.facts.to_string(), time]);
    }
    format!("{head}{}\n{}", filled(SQLITE_WORK), laid_out(&rows))
}
