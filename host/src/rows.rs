//! A body as rows: the ids of one fact each, ascending.

use std::slice::ChunksExact;

/// The rows of a body.
#[derive(Clone, Copy)]
pub(crate) struct Rows<'a> {
    bytes: &'a [u8],
    width: usize,
}

impl<'a> Rows<'a> {
    pub(crate) fn new(bytes: &'a [u8], width: usize) -> Rows<'a> {
        Rows { bytes, width }
    }

    pub(crate) fn bytes(self) -> &'a [u8] {
        self.bytes
    }

    pub(crate) fn count(self) -> usize {
        self.bytes.len() / self.width
    }

    pub(crate) fn iter(self) -> ChunksExact<'a, u8> {
        self.bytes.chunks_exact(self.width)
    }

    /// Whether the ids are a row.
    pub(crate) fn has(self, ids: &[u8]) -> bool {
        let place = self.partition_point(|row| row < ids);
        place < self.count() && self.row(place) == ids
    }

    /// The rows whose first id is this; they stand together.
    pub(crate) fn of_first(self, id: u8) -> Rows<'a> {
        let from = self.partition_point(|row| row[0] < id);
        let to = self.partition_point(|row| row[0] <= id);
        Rows::new(&self.bytes[from * self.width..to * self.width], self.width)
    }

    fn row(self, place: usize) -> &'a [u8] {
        &self.bytes[place * self.width..][..self.width]
    }

    /// How many rows pass the test, by binary search: those that do stand before those that do not.
    fn partition_point(self, passes: impl Fn(&[u8]) -> bool) -> usize {
        let (mut from, mut to) = (0, self.count());
        while from < to {
            let middle = (from + to) / 2;
            if passes(self.row(middle)) {
                from = middle + 1;
            } else {
                to = middle;
            }
        }
        from
    }
}
