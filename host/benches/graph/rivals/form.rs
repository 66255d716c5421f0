//! The form of a ticket: refusals 4 to 8, which do not ask what the table holds.

use super::fact::*;

const INSERT: u8 = 1;
const DELETE: u8 = 2;

/// A ticket of good form. To insert kind 2, b is the domain and c the range.
#[derive(Clone, Copy)]
pub struct Ticket {
    pub inserts: bool,
    pub kind: u8,
    pub a: u8,
    pub b: u8,
    pub c: u8,
}

impl Ticket {
    /// The word of the asked fact; of the property alone where one is made.
    pub fn asked(&self) -> u32 {
        match self.kind {
            PROPERTY => word(PROPERTY, self.a, 0, 0),
            kind => word(kind, self.a, self.b, self.c),
        }
    }
}

/// The ticket of these bytes, or the first of the refusals 4 to 8.
pub fn ticket_of(bytes: &[u8]) -> Result<Ticket, u8> {
    let [operation, kind, a, b, c] = <[u8; 5]>::try_from(bytes).map_err(|_| 4)?;
    if operation != INSERT && operation != DELETE {
        return Err(5);
    }
    if width(kind) == 0 || kind == DOMAIN || kind == RANGE {
        return Err(6);
    }
    let inserts = operation == INSERT;
    if has_bad_ids(inserts, kind, [a, b, c]) {
        return Err(7);
    }
    if !inserts && is_guarded(kind, a, b) {
        return Err(8);
    }
    Ok(Ticket { inserts, kind, a, b, c })
}

fn has_bad_ids(inserts: bool, kind: u8, [a, b, c]: [u8; 3]) -> bool {
    let makes_property = inserts && kind == PROPERTY;
    if a == MARK || b == MARK || (c == MARK && !makes_property) {
        return true;
    }
    match width(kind) {
        1 => !makes_property && (b != 0 || c != 0),
        2 => c != 0,
        _ => false,
    }
}

fn is_guarded(kind: u8, a: u8, b: u8) -> bool {
    match kind {
        CLASS => a == RESOURCE,
        SUBCLASS | MEMBER => b == RESOURCE,
        _ => false,
    }
}
