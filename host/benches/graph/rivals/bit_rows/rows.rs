//! All rows of a table in one run, with the old rows kept while a ticket is tried.

use super::set::Set;
use crate::rivals::fact::*;

/// The ids of each sort and the exclusive properties, by kind; the other rows up to there are unused.
pub const SORTS: usize = 0;
/// For each class, the classes over it and those under it.
pub const ABOVE: usize = 1 + EXCLUSIVE as usize;
pub const BELOW: usize = ABOVE + 256;
/// For each property, the properties over it and those under it.
pub const OVER: usize = BELOW + 256;
pub const UNDER: usize = OVER + 256;
/// For each individual its classes, for each class its members.
pub const CLASSES: usize = UNDER + 256;
pub const MEMBERS: usize = CLASSES + 256;
/// For each property, the individuals that may have a value for it; the others have none.
pub const SUBJECTS: usize = MEMBERS + 256;
/// A row that stays empty, then the rows of values, one for each property and subject that has had one.
const NO_VALUES: usize = SUBJECTS + 256;

/// No block of value rows.
const NONE: u16 = u16::MAX;

pub struct Rows {
    rows: Vec<Set>,
    /// For each property its block, where it has one: the place of each subject's row of values, after
    /// `NO_VALUES`.
    blocks: Vec<[u16; 256]>,
    block_of: [u16; 256],
    /// Valid for properties.
    pub domain: [u8; 256],
    pub range: [u8; 256],
    /// The number of facts.
    pub count: usize,
    /// Rows as they were, the last changed last.
    journal: Vec<(usize, Set)>,
}

impl Rows {
    pub fn empty() -> Rows {
        let mut rows = Vec::with_capacity(NO_VALUES + 512);
        rows.resize(NO_VALUES + 1, Set::EMPTY);
        Rows {
            rows,
            blocks: Vec::with_capacity(32),
            block_of: [NONE; 256],
            domain: [0; 256],
            range: [0; 256],
            count: 0,
            journal: Vec::new(),
        }
    }

    #[inline(always)]
    pub fn row(&self, of: usize, x: u8) -> Set {
        self.rows[of + usize::from(x)]
    }

    #[inline(always)]
    pub fn put(&mut self, of: usize, x: u8, y: u8) {
        self.rows[of + usize::from(x)].put(y);
    }

    pub fn sort(&self, kind: u8) -> Set {
        self.row(SORTS, kind)
    }

    /// The values of a subject for a property.
    #[inline(always)]
    pub fn values(&self, p: u8, x: u8) -> Set {
        match self.block_of[usize::from(p)] {
            NONE => Set::EMPTY,
            block => self.rows[NO_VALUES + usize::from(self.blocks[usize::from(block)][usize::from(x)])],
        }
    }

    /// The place of a subject's row of values for a property, made where there is none.
    #[inline(always)]
    pub fn value_row(&mut self, p: u8, x: u8) -> usize {
        let block = &mut self.block_of[usize::from(p)];
        if *block == NONE {
            *block = self.blocks.len() as u16;
            self.blocks.push([0; 256]);
        }
        let place = &mut self.blocks[usize::from(*block)][usize::from(x)];
        if *place == 0 {
            *place = (self.rows.len() - NO_VALUES) as u16;
            self.rows.push(Set::EMPTY);
        }
        NO_VALUES + usize::from(*place)
    }

    #[inline(always)]
    pub fn put_value(&mut self, p: u8, x: u8, y: u8) {
        self.put(SUBJECTS, p, x);
        let row = self.value_row(p, x);
        self.rows[row].put(y);
    }

    /// Begins a ticket that may have to be taken back.
    pub fn begin(&mut self) {
        self.journal.clear();
    }

    /// Takes back all joins since the last beginning, when there were `count` facts.
    pub fn take_back(&mut self, count: usize) {
        while let Some((row, old)) = self.journal.pop() {
            self.rows[row] = old;
        }
        self.count = count;
    }

    /// Joins ids to a row; each new one is a fact.
    pub fn join(&mut self, row: usize, ids: Set) {
        let old = self.rows[row];
        let new = ids.minus(old);
        if !new.is_empty() {
            self.count += new.len();
            self.journal.push((row, old));
            self.rows[row] = old.or(new);
        }
    }

    /// Joins ids to a row that says once more what another says.
    pub fn mirror(&mut self, row: usize, ids: Set) {
        let old = self.rows[row];
        let new = old.or(ids);
        if new != old {
            self.journal.push((row, old));
            self.rows[row] = new;
        }
    }

    /// Takes ids out of a row; each that was there was a fact.
    pub fn part(&mut self, row: usize, ids: Set) {
        let gone = self.rows[row].and(ids);
        if !gone.is_empty() {
            self.count -= gone.len();
            self.rows[row] = self.rows[row].minus(gone);
        }
    }

    /// Takes an id out of a row that says once more what another says.
    pub fn unmirror(&mut self, row: usize, x: u8) {
        self.rows[row].take(x);
    }

    pub fn clear(&mut self, row: usize) {
        self.rows[row] = Set::EMPTY;
    }

    /// Takes values of a subject, and the subject if none is left.
    pub fn part_values(&mut self, p: u8, x: u8, ids: Set) {
        let row = self.value_row(p, x);
        self.part(row, ids);
        if self.rows[row].is_empty() {
            self.unmirror(SUBJECTS + usize::from(p), x);
        }
    }

    /// Whether two individuals have the same value for a property.
    pub fn has_two_holders(&self, p: u8) -> bool {
        meet(self.row(SUBJECTS, p).ids().map(|x| self.values(p, x)))
    }

    pub fn is_class(&self, x: u8) -> bool {
        self.sort(CLASS).has(x)
    }
}

/// Whether two of some sets have an id in common.
pub fn meet(mut sets: impl Iterator<Item = Set>) -> bool {
    let mut seen = Set::EMPTY;
    sets.any(|set| {
        let is_met = !seen.and(set).is_empty();
        seen = seen.or(set);
        is_met
    })
}
