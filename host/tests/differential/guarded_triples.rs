//! The calls for triples and the independent implementation on the same bytes, with guard bytes around every
//! buffer: the calls as they cross the C interface, and the host's over them.

use crate::guarded::{assert_alone, assert_untouched_from, lent_bytes, Guarded};
use crate::independent::host::{host_check, host_read_triples, host_write_triples};
use vimelosa_host::{
    read_triples, read_triples_raw, write_triples, write_triples_raw, Refusal, Rule, LONGEST_IMAGE,
    LONGEST_TEXT,
};

/// The number that both give for the text of an image, and the output that both leave. The image is left as
/// it was, so is every guard, and so is the output on a refusal and after the text.
pub fn same_written(image: &[u8], output_length: usize) -> (u64, Vec<u8>) {
    let mut expected = lent_bytes(output_length);
    let expected_number = host_write_triples(image, &mut expected);

    let lent_image = Guarded::of(image);
    let mut lent_output = Guarded::of(&lent_bytes(output_length));
    let number = write_triples_raw(lent_image.inner(), lent_output.inner_mut());

    assert_eq!(number, expected_number, "{image:02x?}");
    lent_image.assert_holds(image);
    lent_output.assert_holds(&expected);
    assert_untouched_from((number >> 16) as usize, &expected);
    if number as u16 != 0 {
        assert_alone(number, &[3, 11, 12, 13]);
    }

    let mut safe_output = Guarded::of(&lent_bytes(output_length));
    let written = write_triples(lent_image.inner(), safe_output.inner_mut());
    let needed = || (host_write_triples(image, &mut [0; LONGEST_TEXT]) >> 16) as usize;
    assert_eq!(written, outcome(number, (number >> 16) as usize, host_check(image) >> 16, needed));
    lent_image.assert_holds(image);
    safe_output.assert_holds(&expected);
    (number, expected)
}

/// The number that both give for the image of a text, and the output that both leave. The text is left as it
/// was, so is every guard, and so is the output on a refusal and after the image.
pub fn same_read(text: &[u8], output_length: usize) -> (u64, Vec<u8>) {
    let mut expected = lent_bytes(output_length);
    let expected_number = host_read_triples(text, &mut expected);

    let lent_text = Guarded::of(text);
    let mut lent_output = Guarded::of(&lent_bytes(output_length));
    let number = read_triples_raw(lent_text.inner(), lent_output.inner_mut());

    assert_eq!(number, expected_number, "{}", String::from_utf8_lossy(text));
    lent_text.assert_holds(text);
    lent_output.assert_holds(&expected);
    assert_untouched_from((number >> 48) as usize, &expected);
    match number as u16 {
        0 => assert_eq!(number << 16 >> 16, 0, "{number:#x}"),
        3 => assert!((1..=30).contains(&(number >> 16)), "{number:#x}"),
        _ => assert_alone(number, &[11, 13, 15]),
    }

    let mut safe_output = Guarded::of(&lent_bytes(output_length));
    let read = read_triples(lent_text.inner(), safe_output.inner_mut());
    let needed = || (host_read_triples(text, &mut [0; LONGEST_IMAGE]) >> 48) as usize;
    assert_eq!(read, outcome(number, (number >> 48) as usize, number >> 16, needed));
    lent_text.assert_holds(text);
    safe_output.assert_holds(&expected);
    (number, expected)
}

/// What the host's call gives for a number: the length, or the refusal with what it tells.
fn outcome(number: u64, length: usize, place: u64, needed: impl FnOnce() -> usize) -> Result<usize, Refusal> {
    let rule = |place: u64| Rule::try_from(place as u16).expect("a rule has a place");
    Err(match number as u16 {
        0 => return Ok(length),
        3 => Refusal::Inconsistent { rule: rule(place) },
        11 => Refusal::TooMany,
        12 => Refusal::Malformed,
        13 => Refusal::ShortOutput { needed: needed() },
        15 => Refusal::OutsideProfile,
        other => panic!("there is no refusal {other} here"),
    })
}
