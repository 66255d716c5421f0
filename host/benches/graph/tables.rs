//! Paragraphs and tables of times, as Markdown.

use crate::candidates::NAMES;
use crate::clock::{median, Readings};

/// No line of the report is longer.
const WIDTH: usize = 110;

/// A paragraph, broken at the width.
pub fn filled(text: &str) -> String {
    let mut lines = vec![String::new()];
    for word in text.split(' ') {
        let line = lines.last_mut().expect("there is a line");
        if line.is_empty() {
            line.push_str(word);
        } else if line.chars().count() + 1 + word.chars().count() <= WIDTH {
            line.push(' ');
            line.push_str(word);
        } else {
            lines.push(word.to_string());
        }
    }
    lines.join("\n") + "\n"
}

/// One piece of work and what it takes each candidate, in nanoseconds, with the ratio of the first to each
/// other.
#[derive(Clone)]
pub struct Line {
    pub work: String,
    pub times: Vec<f64>,
    ratios: Vec<f64>,
}

impl Line {
    /// From the readings of each candidate: the medians, and the medians of the ratios within each
    /// repetition.
    pub fn of(work: String, readings: &[Readings]) -> Line {
        let ratio =
            |rival: &Readings| median(readings[0].iter().zip(rival).map(|(own, its)| own / its).collect());
        Line {
            work,
            times: readings.iter().cloned().map(median).collect(),
            ratios: readings[1..].iter().map(ratio).collect(),
        }
    }

    /// The mean of several lines, and its ratios.
    pub fn mean(work: String, lines: &[Line]) -> Line {
        let mean_of =
            |column: usize| lines.iter().map(|line| line.times[column]).sum::<f64>() / lines.len() as f64;
        let times: Vec<f64> = (0..lines[0].times.len()).map(mean_of).collect();
        let ratios = times[1..].iter().map(|time| times[0] / time).collect();
        Line { work, times, ratios }
    }
}

/// How a table shows its times.
#[derive(Clone, Copy)]
pub enum Unit {
    Microseconds,
    Nanoseconds,
}

/// A table with a column for each candidate and the proved one's ratio to each rival.
pub fn table(first: &str, unit: Unit, lines: &[Line]) -> String {
    table_of(first, &NAMES, unit, lines)
}

/// A table with a column for each name and the ratio of the first to each other.
pub fn table_of(first: &str, names: &[&str], unit: Unit, lines: &[Line]) -> String {
    let heads = std::iter::once(first).chain(names.iter().copied()).map(String::from);
    let ratios = names[1..].iter().map(|other| format!("{} / {other}", names[0]));
    let mut rows = vec![heads.chain(ratios).collect()];
    rows.extend(lines.iter().map(|line| cells(unit, line)));
    laid_out(&rows)
}

fn cells(unit: Unit, line: &Line) -> Vec<String> {
    let mut cells = vec![line.work.clone()];
    cells.extend(line.times.iter().map(|time| shown(unit, *time)));
    cells.extend(line.ratios.iter().map(|ratio| format!("{ratio:.2}")));
    cells
}

pub fn shown(unit: Unit, nanoseconds: f64) -> String {
    let (number, name) = match unit {
        Unit::Microseconds => (nanoseconds / 1000.0, "µs"),
        Unit::Nanoseconds => (nanoseconds, "ns"),
    };
    let digits = if number < 100.0 { 1 } else { 0 };
    format!("{number:.digits$} {name}")
}

/// Rows of cells in columns, the first row the heads; the first column to the left, the others to the right.
pub fn laid_out(rows: &[Vec<String>]) -> String {
    let columns = 0..rows[0].len();
    let longest = |column: usize| rows.iter().map(|row| row[column].chars().count()).max().unwrap_or(0);
    let widths: Vec<usize> = columns.map(longest).collect();
    let rule = widths.iter().enumerate().map(|(column, width)| match column {
        0 => "-".repeat(*width),
        _ => "-".repeat(width - 1) + ":",
    });
    let mut text = row_text(&rows[0], &widths) + &row_text(&rule.collect::<Vec<_>>(), &widths);
    for row in &rows[1..] {
        text += &row_text(row, &widths);
    }
    text
}

fn row_text(cells: &[String], widths: &[usize]) -> String {
    let padded = cells.iter().zip(widths).enumerate().map(|(column, (cell, width))| match column {
        0 => format!("{cell:<width$}"),
        _ => format!("{cell:>width$}"),
    });
    format!("| {} |\n", padded.collect::<Vec<_>>().join(" | "))
}
