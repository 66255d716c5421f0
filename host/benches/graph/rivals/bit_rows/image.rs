//! Rows from an image, and the image of rows.

use super::loaded::Loaded;
use super::rows::*;
use super::set::Set;
use crate::rivals::contents::*;
use crate::rivals::fact::*;
use vimelosa_host::LONGEST_IMAGE;

/// The rows of an image, or refusal 12 or 11.
pub fn load(image: &[u8]) -> Result<Loaded, u8> {
    let (counts, mut rest) = contents_of(image).ok_or(12)?;
    let mut loaded = Loaded::empty();
    loaded.rows.count = counts.iter().sum();
    let is_short = loaded.rows.count <= MOST_WORDS;
    for kind in CLASS..=EXCLUSIVE {
        let (body, after) = rest.split_at(width(kind) * counts[usize::from(kind)]);
        rest = after;
        let is_good = match width(kind) {
            1 => load_body(&mut loaded, kind, body.iter().map(|a| [*a, 0, 0]), is_short),
            2 => load_body(&mut loaded, kind, body.chunks_exact(2).map(|ids| [ids[0], ids[1], 0]), is_short),
            _ => load_body(
                &mut loaded,
                kind,
                body.chunks_exact(3).map(|ids| [ids[0], ids[1], ids[2]]),
                is_short,
            ),
        };
        if !is_good {
            return Err(12);
        }
    }
    if is_short {
        Ok(loaded)
    } else {
        Err(11)
    }
}

/// Whether the body is facts, ascending; if so they are put in.
#[inline(always)]
fn load_body(
    loaded: &mut Loaded,
    kind: u8,
    facts: impl Iterator<Item = [u8; 3]> + Clone,
    puts: bool,
) -> bool {
    let mut is_good = true;
    let mut least = 0;
    for [a, b, c] in facts.clone() {
        let fact = word(0, a, b, c);
        let has_mark = (a == MARK) | (c == MARK) | ((b == MARK) & (kind != RANGE));
        is_good &= (fact >= least) & !has_mark;
        least = fact + 1;
    }
    if is_good && puts {
        loaded.put_all(kind, facts);
    }
    is_good
}

/// Writes the image and answers its length, or none if the output is too short.
pub fn write(rows: &Rows, output: &mut [u8]) -> Option<usize> {
    let mut bodies = Vec::with_capacity(LONGEST_IMAGE);
    let mut counts = Counts::default();
    let mut done = 0;
    for kind in CLASS..=EXCLUSIVE {
        push_body(rows, kind, &mut bodies);
        counts[usize::from(kind)] = (bodies.len() - done) / width(kind);
        done = bodies.len();
    }
    let output = output.get_mut(..CONTENTS_LENGTH + bodies.len())?;
    write_contents(&counts, output);
    output[CONTENTS_LENGTH..].copy_from_slice(&bodies);
    Some(output.len())
}

fn push_body(rows: &Rows, kind: u8, bodies: &mut Vec<u8>) {
    match kind {
        SUBCLASS => push_rows(rows, ABOVE, rows.sort(CLASS), bodies),
        SUBPROPERTY => push_rows(rows, OVER, rows.sort(PROPERTY), bodies),
        DOMAIN => push_ends(rows, &rows.domain, bodies),
        RANGE => push_ends(rows, &rows.range, bodies),
        MEMBER => push_rows(rows, CLASSES, rows.sort(INDIVIDUAL), bodies),
        VALUE => push_values(rows, bodies),
        sort => bodies.extend(rows.sort(sort).ids()),
    }
}

fn push_ends(rows: &Rows, ends: &[u8; 256], bodies: &mut Vec<u8>) {
    for p in rows.sort(PROPERTY).ids() {
        bodies.extend_from_slice(&[p, ends[usize::from(p)]]);
    }
}

fn push_rows(rows: &Rows, of: usize, firsts: Set, bodies: &mut Vec<u8>) {
    for x in firsts.ids() {
        for y in rows.row(of, x).ids() {
            bodies.extend_from_slice(&[x, y]);
        }
    }
}

/// All values, by subject, by value and then by property: the rows of a subject are turned into the
/// properties of each of its values.
fn push_values(rows: &Rows, bodies: &mut Vec<u8>) {
    let mut properties = [Set::EMPTY; 256];
    let valued = rows.sort(PROPERTY);
    for x in rows.sort(INDIVIDUAL).ids() {
        let mut all = Set::EMPTY;
        for p in valued.ids() {
            if rows.row(SUBJECTS, p).has(x) {
                let values = rows.values(p, x);
                all = all.or(values);
                values.ids().for_each(|y| properties[usize::from(y)].put(p));
            }
        }
        for y in all.ids() {
            for p in properties[usize::from(y)].ids() {
                bodies.extend_from_slice(&[x, y, p]);
            }
            properties[usize::from(y)] = Set::EMPTY;
        }
    }
}
