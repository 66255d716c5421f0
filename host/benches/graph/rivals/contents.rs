//! The contents of an image: how many facts of each kind its bodies hold.

use super::fact::{width, EXCLUSIVE, VALUE};

const EDITION: u8 = 1;

/// The kinds of an image that is written. One that is read may lack the last.
const KINDS: u8 = EXCLUSIVE;
const OLD_KINDS: u8 = VALUE;

/// Bytes before the first body of an image that is written.
pub const CONTENTS_LENGTH: usize = contents_length(KINDS);

/// The facts of each kind, by kind; the place 0 is unused.
pub type Counts = [usize; 1 + KINDS as usize];

/// Edition, number of entries, and six bytes for each kind.
const fn contents_length(kinds: u8) -> usize {
    2 + 6 * kinds as usize
}

/// How long the image of so many facts is.
pub fn image_length(counts: &Counts) -> usize {
    let bodies: usize = (1..=KINDS).map(|kind| width(kind) * counts[usize::from(kind)]).sum();
    CONTENTS_LENGTH + bodies
}

/// The counts of an image and its bodies, if its contents are as they have to be and the bodies end where it
/// ends.
pub fn contents_of(image: &[u8]) -> Option<(Counts, &[u8])> {
    let kinds = match image.get(..2)? {
        [EDITION, kinds @ (OLD_KINDS | KINDS)] => *kinds,
        _ => return None,
    };
    let contents = image.get(..contents_length(kinds))?;
    let mut counts = Counts::default();
    let mut start = contents.len();
    for (kind, entry) in (1..=kinds).zip(contents[2..].chunks_exact(6)) {
        let stated = usize::from(u16::from_le_bytes([entry[2], entry[3]]));
        if entry[0] != kind || usize::from(entry[1]) != width(kind) || stated != start {
            return None;
        }
        let count = usize::from(u16::from_le_bytes([entry[4], entry[5]]));
        counts[usize::from(kind)] = count;
        start += width(kind) * count;
    }
    (start == image.len()).then_some((counts, &image[contents.len()..]))
}

/// Writes the contents to the output, which has room for the image.
pub fn write_contents(counts: &Counts, output: &mut [u8]) {
    output[..2].copy_from_slice(&[EDITION, KINDS]);
    let mut start = CONTENTS_LENGTH;
    for (kind, entry) in (1..=KINDS).zip(output[2..CONTENTS_LENGTH].chunks_exact_mut(6)) {
        let count = counts[usize::from(kind)];
        entry[..2].copy_from_slice(&[kind, width(kind) as u8]);
        entry[2..4].copy_from_slice(&(start as u16).to_le_bytes());
        entry[4..].copy_from_slice(&(count as u16).to_le_bytes());
        start += width(kind) * count;
    }
}
