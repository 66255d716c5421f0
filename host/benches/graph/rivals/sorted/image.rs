//! The image of sorted words, written and read.

use crate::rivals::contents::*;
use crate::rivals::fact::*;

/// The words of an image's facts, or none if it is malformed.
pub fn words_of(image: &[u8]) -> Option<Vec<u32>> {
    let (counts, mut rest) = contents_of(image)?;
    let mut words = Vec::with_capacity(MOST_WORDS + 1);
    for kind in CLASS..=EXCLUSIVE {
        let (body, after) = rest.split_at(width(kind) * counts[usize::from(kind)]);
        match width(kind) {
            1 => words.extend(body.iter().map(|a| word(kind, *a, 0, 0))),
            2 => words.extend(body.chunks_exact(2).map(|ids| word(kind, ids[0], ids[1], 0))),
            _ => words.extend(body.chunks_exact(3).map(|ids| word(kind, ids[0], ids[1], ids[2]))),
        }
        rest = after;
    }
    let ascending = words.windows(2).all(|pair| pair[0] < pair[1]);
    (ascending && words.iter().all(|fact| is_fact(*fact))).then_some(words)
}

/// Writes the image of ascending words and answers its length, or none if the output is too short.
pub fn write(words: &[u32], output: &mut [u8]) -> Option<usize> {
    let mut counts = Counts::default();
    for fact in words {
        counts[(fact >> 24) as usize] += 1;
    }
    let output = output.get_mut(..image_length(&counts))?;
    write_contents(&counts, output);
    let mut at = CONTENTS_LENGTH;
    for fact in words {
        let [kind, ids @ ..] = fact.to_be_bytes();
        let used = width(kind);
        output[at..at + used].copy_from_slice(&ids[..used]);
        at += used;
    }
    Some(at)
}
