//! Counts, columns and lists in words.

use vimelosa_host::Names;

/// Lists of names are broken at so many characters.
pub const WIDTH: usize = 100;

/// `1 ticket`, `2 tickets`, `2 classes`.
pub fn count(number: usize, noun: &str) -> String {
    let ending = match number {
        1 => "",
        _ if noun.ends_with('s') => "es",
        _ => "s",
    };
    format!("{} {noun}{ending}", grouped(number))
}

/// A number with a comma between thousands: `2,048`.
pub fn grouped(number: usize) -> String {
    let digits = number.to_string();
    let mut text = String::new();
    for (place, digit) in digits.chars().enumerate() {
        if place > 0 && (digits.len() - place) % 3 == 0 {
            text.push(',');
        }
        text.push(digit);
    }
    text
}

/// An id's name, or the id where it has none.
pub fn named(names: &Names, id: u8) -> String {
    names.name_of(id).map_or_else(|| id.to_string(), str::to_owned)
}

/// The names of ids, with a comma after each but the last, in lines of at most `width` characters where a
/// name is not longer; the first line has only `first` characters.
pub fn filled(names: &Names, ids: &[u8], first: usize, width: usize) -> Vec<String> {
    let mut lines = vec![String::new()];
    for (place, &id) in ids.iter().enumerate() {
        let comma = if place + 1 < ids.len() { "," } else { "" };
        let word = named(names, id) + comma;
        let room = if lines.len() == 1 { first } else { width };
        let line = lines.last_mut().expect("there is a line");
        if line.is_empty() {
            line.push_str(&word);
        } else if length(line) + 1 + length(&word) <= room {
            line.push(' ');
            line.push_str(&word);
        } else {
            lines.push(word);
        }
    }
    lines
}

/// How many characters a text has.
pub fn length(text: &str) -> usize {
    text.chars().count()
}

/// Rows of cells as lines, each column as wide as its longest cell and two blanks between.
pub fn columns<const N: usize>(rows: &[[String; N]]) -> String {
    let mut text = String::new();
    for row in rows {
        let mut line = String::new();
        for (place, cell) in row.iter().enumerate() {
            let width = rows.iter().map(|row| length(&row[place])).max().unwrap_or(0);
            line.push_str(cell);
            line.push_str(&" ".repeat(width + 2 - length(cell)));
        }
        text.push_str(line.trim_end());
        text.push('\n');
    }
    text
}
