//! SQLite with triggers that carry the side effects, through its command, where it is installed. It runs
//! insertions of good form only, in one transaction on a database in memory.

use crate::clock::processor_time;
use crate::plant::Bytes;
use crate::programs::file_of;
use crate::rivals::fact::PROPERTY;
use crate::rivals::form::ticket_of;
use crate::rivals::sorted::Sorted;
use crate::rivals::Rival;
use std::fs::{self, File};
use std::process::{Command, Stdio};

const SCHEMA: &str = include_str!("facts.sql");
const RUNS: usize = 3;

/// What was measured on one list.
pub struct Measured {
    pub tickets: usize,
    pub facts: usize,
    /// Nanoseconds a ticket.
    pub time: f64,
}

pub fn is_installed() -> bool {
    let status =
        Command::new("sqlite3").arg("--version").stdout(Stdio::null()).stderr(Stdio::null()).status();
    matches!(status, Ok(status) if status.success())
}

/// The insertions of good form in a list, at most so many.
pub fn insertions(list: &[u8], most: usize) -> Vec<Bytes> {
    let tickets = list.chunks_exact(5).map(|ticket| <Bytes>::try_from(ticket).expect("five bytes"));
    let good = tickets.filter(|ticket| matches!(ticket_of(ticket), Ok(asked) if asked.inserts));
    good.take(most).collect()
}

/// The table at the end is that of `sorted`; the time is the least of a few runs, without that of an empty
/// list.
pub fn measure(name: &str, tickets: &[Bytes]) -> Measured {
    let mut table = Sorted::fresh();
    for ticket in tickets {
        assert_ne!(table.apply(ticket).number, 11, "SQLite's table has no bound");
    }
    let least = |tickets: &[Bytes]| {
        let runs = (0..RUNS).map(|_| run(name, tickets));
        runs.min_by(|one, other| one.0.total_cmp(&other.0)).expect("there are runs")
    };
    let (start, _) = least(&[]);
    let (time, words) = least(tickets);
    assert_eq!(words, table.words(), "the tables differ");
    Measured {
        tickets: tickets.len(),
        facts: words.len(),
        time: (time - start).max(0.0) / tickets.len() as f64,
    }
}

/// The processor's nanoseconds of a process, and the words of its facts at the end.
fn run(name: &str, tickets: &[Bytes]) -> (f64, Vec<u32>) {
    let (input, output) = (file_of(&format!("{name}.sql")), file_of(&format!("{name}.out")));
    fs::write(&input, script(tickets)).expect("the target folder takes a file");
    let mut command = Command::new("sqlite3");
    command.arg(":memory:").stdin(File::open(&input).expect("the script is there"));
    command.stdout(File::create(&output).expect("the target folder takes a file"));
    let time = processor_time(command);
    let printed = fs::read_to_string(&output).expect("sqlite3 prints text");
    (time, printed.lines().map(|line| line.parse().expect("a word")).collect())
}

fn script(tickets: &[Bytes]) -> String {
    let statements: String = tickets.iter().map(statement).collect();
    let words = "SELECT k * 16777216 + a * 65536 + b * 256 + c AS word FROM fact ORDER BY word;\n";
    format!("{SCHEMA}BEGIN;\n{statements}COMMIT;\n{words}")
}

fn statement([_, kind, a, b, c]: &Bytes) -> String {
    match *kind {
        PROPERTY => format!("INSERT OR IGNORE INTO fact VALUES (2,{a},0,0),(7,{a},{b},0),(8,{a},{c},0);\n"),
        _ => format!("INSERT OR IGNORE INTO fact VALUES ({kind},{a},{b},{c});\n"),
    }
}
