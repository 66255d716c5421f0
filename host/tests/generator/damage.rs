//! Images changed in one place or another.

use super::Random;
use crate::independent::image::{contents_length, CONTENTS_LENGTH, ENTRIES, FEWER_ENTRIES};

/// An image with one to three changes: bytes put in, taken out or written over, numbers of the contents
/// shifted, the number of entries exchanged, the last entry put in or taken out.
pub fn damaged(random: &mut Random, image: &[u8]) -> Vec<u8> {
    let mut bytes = image.to_vec();
    for _ in 0..1 + random.below(3) {
        damage(random, &mut bytes);
    }
    bytes
}

fn damage(random: &mut Random, bytes: &mut Vec<u8>) {
    if bytes.is_empty() {
        return bytes.push(random.byte());
    }
    let place = random.below(bytes.len());
    let in_contents = random.below(bytes.len().min(CONTENTS_LENGTH));
    match random.below(10) {
        0 => bytes[place] = random.byte(),
        1 => bytes[place] = bytes[place].wrapping_add(1),
        2 => bytes[in_contents] = bytes[in_contents].wrapping_add(1),
        3 => bytes[in_contents] = random.byte(),
        4 => bytes.truncate(place),
        5 => bytes.insert(place, random.byte()),
        6 => bytes.push(random.byte() % 8),
        7 => exchange_entries(random, bytes),
        8 => move_last_entry(bytes),
        _ => swap_neighbours(bytes, place),
    }
}

fn swap_neighbours(bytes: &mut [u8], place: usize) {
    let next = (place + 1) % bytes.len();
    bytes.swap(place, next);
}

/// Another number of entries, and nothing else.
fn exchange_entries(random: &mut Random, bytes: &mut [u8]) {
    if let Some(entries) = bytes.get_mut(1) {
        *entries = random.pick(&[0, FEWER_ENTRIES - 1, FEWER_ENTRIES, ENTRIES, ENTRIES + 1]);
    }
}

/// The eleventh entry taken out, or an empty one put in, with the number of entries but not the starts.
fn move_last_entry(bytes: &mut Vec<u8>) {
    let (from, to) = (contents_length(FEWER_ENTRIES), contents_length(ENTRIES));
    if bytes.len() < to {
        return;
    }
    if bytes[1] == ENTRIES {
        bytes[1] = FEWER_ENTRIES;
        bytes.drain(from..to);
    } else {
        let [low, high] = (bytes.len() as u16 + 6).to_le_bytes();
        bytes[1] = ENTRIES;
        bytes.splice(from..from, [ENTRIES, 1, low, high, 0, 0]);
    }
}

/// The image with each byte of the contents changed, one at a time: one more, one less, and 0.
pub fn each_contents_byte_changed(image: &[u8]) -> impl Iterator<Item = Vec<u8>> + '_ {
    (0..contents_length(image[1])).flat_map(move |place| {
        let byte = image[place];
        [byte.wrapping_add(1), byte.wrapping_sub(1), 0].map(|other| with_byte(image, place, other))
    })
}

fn with_byte(image: &[u8], place: usize, byte: u8) -> Vec<u8> {
    let mut bytes = image.to_vec();
    bytes[place] = byte;
    bytes
}
