//! The calls across the C interface that write and read texts of N-Triples.

use crate::candidates::{TextCall, NAMES, READ_CALLS, WRITE_CALLS};
use crate::clock::{interleaved, repeated, Run};
use crate::settings::Settings;
use crate::tables::Line;
use crate::texts::Text;
use vimelosa_host::LONGEST_TEXT;

/// A line for each text.
pub struct Measured {
    pub written: Vec<Line>,
    pub read: Vec<Line>,
}

/// One call of every candidate, with what it is given and what it has to write.
struct Work<'a> {
    name: &'a str,
    calls: [TextCall; 3],
    input: &'a [u8],
    expected: &'a [u8],
}

/// Measures the writing of some texts and the reading of some, each once within every repetition.
pub fn measure(settings: &Settings, written: &[Text], read: &[&Text]) -> Measured {
    let reading = read.iter().map(|text| Work::reading(text));
    let works: Vec<Work> = written.iter().map(Work::writing).chain(reading).collect();
    works.iter().for_each(Work::compare);
    let mut runs: Vec<Run> = works.iter().flat_map(|work| work.runs(settings)).collect();
    let readings = interleaved(settings.slices, &mut runs);
    let own = works.iter().zip(readings.chunks(NAMES.len()));
    let lines: Vec<Line> = own.map(|(work, own)| Line::of(work.name.to_string(), own)).collect();
    let (written, read) = lines.split_at(written.len());
    Measured { written: written.to_vec(), read: read.to_vec() }
}

impl<'a> Work<'a> {
    fn writing(text: &'a Text) -> Work<'a> {
        Work { name: &text.name, calls: WRITE_CALLS, input: &text.image, expected: &text.text }
    }

    fn reading(text: &'a Text) -> Work<'a> {
        Work { name: &text.name, calls: READ_CALLS, input: &text.text, expected: &text.image_told }
    }

    /// All candidates give the same number and write what they have to and no other byte.
    fn compare(&self) {
        let mut expected = vec![0x5a; LONGEST_TEXT];
        expected[..self.expected.len()].copy_from_slice(self.expected);
        let numbers = self.calls.map(|call| {
            let mut output = vec![0x5a; LONGEST_TEXT];
            let number = call(self.input, &mut output);
            assert!(output == expected, "the outputs on {} differ", self.name);
            number
        });
        assert_eq!(numbers[0] as u16, 0, "{} is refused", self.name);
        assert!(numbers.iter().all(|other| *other == numbers[0]), "the numbers on {} differ", self.name);
    }

    fn runs(&self, settings: &Settings) -> Vec<Run<'a>> {
        let run = |call| repeated(settings.slice, called(call, self.input));
        self.calls.into_iter().map(run).collect()
    }
}

fn called<'a>(call: TextCall, input: &'a [u8]) -> impl FnMut() -> u64 + 'a {
    let mut output = vec![0; LONGEST_TEXT];
    move || call(input, &mut output)
}
