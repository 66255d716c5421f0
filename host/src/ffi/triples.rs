//! The calls that write and read texts of N-Triples.

extern "C" {
    fn vimelosa_write_triples(
        image: *const u8,
        image_length: usize,
        output: *mut u8,
        output_length: usize,
    ) -> u64;

    fn vimelosa_read_triples(
        text: *const u8,
        text_length: usize,
        output: *mut u8,
        output_length: usize,
    ) -> u64;
}

/// The text of an image's graph, with the call's number as it comes: the answer in the lowest 16 bits, the
/// length of the text written in those above. On a refusal the output is as it was.
///
/// ```
/// use vimelosa_host::{write_triples_raw, Graph};
///
/// let mut output = [0; 145];
/// let number = write_triples_raw(Graph::fresh().image(), &mut output);
/// assert_eq!((number & 0xffff, number >> 16), (0, 145));
/// assert!(output.ends_with(b"<http://www.w3.org/2000/01/rdf-schema#Class> .\n"));
///
/// assert_eq!(write_triples_raw(Graph::fresh().image(), &mut output[..144]), 13);
/// ```
#[must_use = "whether the call was refused is told here alone"]
pub fn write_triples_raw(image: &[u8], output: &mut [u8]) -> u64 {
    // SAFETY: each pointer goes with the length of its slice, and the slices outlive the call. The library
    // keeps no pointer and writes only within `output`, which does not overlap `image` since it is lent as
    // `&mut`. The function's contract has no `requires`.
    unsafe { vimelosa_write_triples(image.as_ptr(), image.len(), output.as_mut_ptr(), output.len()) }
}

/// The image of a text's graph, with the call's number as it comes: the answer, for answer 3 the place of the
/// first rule that the graph breaks, 0, and the length of the image written, 16 bits each, lowest first. On a
/// refusal the output is as it was.
///
/// ```
/// use vimelosa_host::{read_triples_raw, Graph};
///
/// let text = Graph::fresh().to_triples();
/// let mut output = [0; 69];
/// let number = read_triples_raw(text.as_bytes(), &mut output);
/// assert_eq!([0, 16, 32, 48].map(|bits| number >> bits & 0xffff), [0, 0, 0, 69]);
/// assert_eq!(output, Graph::fresh().image());
///
/// // A text of no lines lacks Resource, which rule H1 asks for; H1 has place 25.
/// let refused = read_triples_raw(&[], &mut output);
/// assert_eq!([0, 16, 32, 48].map(|bits| refused >> bits & 0xffff), [3, 25, 0, 0]);
/// ```
#[must_use = "whether the call was refused is told here alone"]
pub fn read_triples_raw(text: &[u8], output: &mut [u8]) -> u64 {
    // SAFETY: each pointer goes with the length of its slice, and the slices outlive the call. The library
    // keeps no pointer and writes only within `output`, which does not overlap `text` since it is lent as
    // `&mut`. The function's contract has no `requires`.
    unsafe { vimelosa_read_triples(text.as_ptr(), text.len(), output.as_mut_ptr(), output.len()) }
}
