//! Graphs as texts of N-Triples: a line for each fact but individuals and literals, which the other lines
//! tell.

use crate::call::{broken_rule, needed_by, outcome, parts_of, rule_at};
use crate::ffi::{read_triples_raw, write_triples_raw};
use crate::image::{LONGEST_IMAGE, MOST_FACTS};
use crate::{AllFacts, Graph, Refusal};

/// No line that is read or written has more bytes, its newline counted.
///
/// ```
/// use vimelosa_host::LONGEST_LINE;
/// let line = "<http://www.w3.org/2000/01/rdf-schema#Resource> \
///     <http://www.w3.org/1999/02/22-rdf-syntax-ns#type> \
///     <http://www.w3.org/1999/02/22-rdf-syntax-ns#Property> .\n";
/// assert_eq!(line.len(), LONGEST_LINE);
/// ```
pub const LONGEST_LINE: usize = 154;

/// No graph's text is longer: a fact has at most one line.
///
/// ```
/// use vimelosa_host::{Graph, LONGEST_TEXT};
/// assert_eq!(LONGEST_TEXT, 315_392);
/// assert!(Graph::fresh().to_triples().len() <= LONGEST_TEXT);
/// ```
pub const LONGEST_TEXT: usize = LONGEST_LINE * MOST_FACTS;

/// Writes the text of an image's graph to the output and answers the text's length; the bytes after it are as
/// they were. Lines follow the order of [`Graph::all_facts`], as [`Graph::to_triples`] tells.
///
/// ```
/// use vimelosa_host::{write_triples, Graph, Refusal};
///
/// let fresh = Graph::fresh();
/// let mut output = [0; 145];
/// assert_eq!(write_triples(fresh.image(), &mut output), Ok(145));
/// assert_eq!(&output[..47], b"<http://www.w3.org/2000/01/rdf-schema#Resource>");
///
/// let short = &mut output[..144];
/// assert_eq!(write_triples(fresh.image(), short), Err(Refusal::ShortOutput { needed: 145 }));
/// assert_eq!(write_triples(&[], short), Err(Refusal::Malformed));
/// ```
///
/// # Errors
///
/// Those of [`check_image`](crate::check_image) for the image, [`Refusal::ShortOutput`] for the output, in
/// this order. The output is then as it was. For the rule of an inconsistent image the image is read once
/// more, for the length of a short output the call is made once more. An output of [`LONGEST_LINE`] bytes for
/// each fact, [`LONGEST_TEXT`] in all, is never too short.
pub fn write_triples(image: &[u8], output: &mut [u8]) -> Result<usize, Refusal> {
    let (number, length) = text_parts_of(write_triples_raw(image, output));
    outcome(number, || broken_rule(image), || text_length(image))?;
    Ok(length)
}

/// Reads a text into an image, which it writes to the output, and answers the image's length; the bytes after
/// it are as they were. The lines stand in any order, and repeated ones count once.
///
/// ```
/// use vimelosa_host::{read_triples, Graph, Refusal, Rule};
///
/// let text = Graph::fresh().to_triples();
/// let mut output = [0; 69];
/// assert_eq!(read_triples(text.as_bytes(), &mut output), Ok(69));
/// assert_eq!(output, Graph::fresh().image());
///
/// let short = &mut output[..68];
/// assert_eq!(read_triples(text.as_bytes(), short), Err(Refusal::ShortOutput { needed: 69 }));
/// assert_eq!(read_triples(b"# a comment\n", short), Err(Refusal::OutsideProfile));
/// assert_eq!(read_triples(b"", short), Err(Refusal::Inconsistent { rule: Rule::H1 }));
/// ```
///
/// # Errors
///
/// Those of [`Graph::from_triples`] for the text, [`Refusal::ShortOutput`] for the output, in this order. The
/// output is then as it was. For the length of a short output the call is made once more. An output of
/// [`LONGEST_IMAGE`] bytes is never too short.
pub fn read_triples(text: &[u8], output: &mut [u8]) -> Result<usize, Refusal> {
    let [number, place, _, length] = parts_of(read_triples_raw(text, output));
    let again = |long_enough: &mut [u8]| read_triples_raw(text, long_enough);
    outcome(number, || rule_at(place), || needed_by(again))?;
    Ok(usize::from(length))
}

impl Graph {
    /// The graph as a text of N-Triples, a line for each fact but individuals and literals, in the order of
    /// [`Graph::all_facts`]. An individual is told by the line of its membership in rdfs:Resource, a literal
    /// by the lines of its values. So a literal that is in no value is not in the text; the rest of the graph
    /// is what [`Graph::from_triples`] reads.
    ///
    /// Id n, from 2 to 255, is `<urn:id:n>`, and literal n is `"n"`. Id 0 is the IRI of rdfs:Resource, the
    /// range 1 that of rdfs:Literal. That a property is exclusive is told as its type `<urn:mark:excl>`.
    ///
    /// ```
    /// use vimelosa_host::{Graph, Range, RefusedTicket, Ticket};
    ///
    /// let (machine, serial_number, p7, kx) = (2, 5, 6, 7);
    /// let mut graph = Graph::fresh();
    /// graph.apply_all_or_none(&[
    ///     Ticket::insert_property(serial_number, machine, Range::Literal),
    ///     Ticket::insert_value(p7, kx, serial_number),
    ///     Ticket::insert_exclusive(serial_number),
    /// ])?;
    /// let text = graph.to_triples();
    /// let rdf = |name| format!("<http://www.w3.org/1999/02/22-rdf-syntax-ns#{name}>");
    /// let rdfs = |name| format!("<http://www.w3.org/2000/01/rdf-schema#{name}>");
    /// let lines: Vec<&str> = text.lines().collect();
    /// assert_eq!(lines.len(), 10);
    /// assert_eq!(lines[0], format!("{} {} {} .", rdfs("Resource"), rdf("type"), rdfs("Class")));
    /// assert_eq!(lines[1], format!("<urn:id:2> {} {} .", rdf("type"), rdfs("Class")));
    /// assert_eq!(lines[2], format!("<urn:id:5> {} {} .", rdf("type"), rdf("Property")));
    /// assert_eq!(lines[3], format!("<urn:id:2> {} {} .", rdfs("subClassOf"), rdfs("Resource")));
    /// assert_eq!(lines[4], format!("<urn:id:5> {} <urn:id:2> .", rdfs("domain")));
    /// assert_eq!(lines[5], format!("<urn:id:5> {} {} .", rdfs("range"), rdfs("Literal")));
    /// assert_eq!(lines[6], format!("<urn:id:6> {} {} .", rdf("type"), rdfs("Resource")));
    /// assert_eq!(lines[7], format!("<urn:id:6> {} <urn:id:2> .", rdf("type")));
    /// assert_eq!(lines[8], "<urn:id:6> <urn:id:5> \"7\" .");
    /// assert_eq!(lines[9], format!("<urn:id:5> {} <urn:mark:excl> .", rdf("type")));
    /// # Ok::<(), RefusedTicket>(())
    /// ```
    #[must_use]
    pub fn to_triples(&self) -> String {
        let mut text = vec![0; LONGEST_LINE * self.count_facts()];
        match write_triples(self.image(), &mut text) {
            Ok(length) => text.truncate(length),
            Err(refusal) => unreachable!("every consistent graph has a text, yet: {refusal}"),
        }
        String::from_utf8(text).expect("a text of N-Triples is ASCII")
    }

    /// The graph of a text of N-Triples, as [`Graph::to_triples`] writes it. The lines stand in any order,
    /// and repeated ones count once. The text has to tell the whole graph: what follows from a line by a rule
    /// is not added, but for individuals and literals.
    ///
    /// ```
    /// use vimelosa_host::{Graph, RefusedTicket, Refusal, Rule, Ticket};
    ///
    /// let mut graph = Graph::fresh();
    /// graph.apply_all_or_none(&[Ticket::insert_subclass(3, 2), Ticket::insert_member(4, 3)])?;
    /// let text = graph.to_triples();
    /// assert_eq!(Graph::from_triples(text.as_bytes()), Ok(graph.clone()));
    ///
    /// let backwards: String = text.lines().rev().map(|line| format!("{line}\n{line}\n")).collect();
    /// assert_eq!(Graph::from_triples(backwards.as_bytes()), Ok(graph));
    ///
    /// // No line is of another form, and each ends with a newline.
    /// for outside in [text.replace("<urn:id:4>", "<urn:id:04>"), text.replace('\n', "\r\n")] {
    ///     assert_eq!(Graph::from_triples(outside.as_bytes()), Err(Refusal::OutsideProfile));
    /// }
    /// assert_eq!(Graph::from_triples(text.trim_end().as_bytes()), Err(Refusal::OutsideProfile));
    ///
    /// // The membership of 4 in class 2, which is over class 3, has a line of its own.
    /// let without: String = text.lines().filter(|line| !line.ends_with("type> <urn:id:2> ."))
    ///     .map(|line| format!("{line}\n")).collect();
    /// let refused = Refusal::Inconsistent { rule: Rule::R26 };
    /// assert_eq!(Graph::from_triples(without.as_bytes()), Err(refused));
    /// # Ok::<(), RefusedTicket>(())
    /// ```
    ///
    /// # Errors
    ///
    /// [`Refusal::OutsideProfile`] if a line is none that a fact has, or if an id is a value's literal in one
    /// line and a value's IRI in another; [`Refusal::TooMany`] if the text tells more than 2,048 facts; or
    /// [`Refusal::Inconsistent`], in this order.
    pub fn from_triples(text: &[u8]) -> Result<Graph, Refusal> {
        let mut output = [0; LONGEST_IMAGE];
        let length = read_triples(text, &mut output)?;
        Ok(Graph::of_written(&output[..length]))
    }
}

/// The length of the text of a good image's graph, by the same call with room for any of as many facts.
fn text_length(image: &[u8]) -> usize {
    let mut long_enough = vec![0; LONGEST_LINE * AllFacts::in_image(image).len()];
    let (_, length) = text_parts_of(write_triples_raw(image, &mut long_enough));
    length
}

/// The answer, and the length of the text.
fn text_parts_of(number: u64) -> (u16, usize) {
    (number as u16, (number >> 16) as usize)
}
