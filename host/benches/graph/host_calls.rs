//! The host call on images.

use crate::candidates::{HostCall, HOST_CALLS};
use crate::clock::{interleaved, repeated, Readings, Run};
use crate::settings::Settings;
use crate::subjects::{Call, Subject, IN_MEAN};
use crate::tables::Line;
use vimelosa_host::LONGEST_IMAGE;

/// What was measured on one graph.
pub struct Measured {
    pub facts: usize,
    /// A line for each ticket, and one for the mean.
    pub calls: Vec<Line>,
    pub mean: Line,
    pub read_and_check: Line,
}

/// Measures all calls on all graphs, each once within every repetition.
pub fn measure(settings: &Settings, subjects: &[Subject]) -> Vec<Measured> {
    let calls: Vec<Vec<Call>> = subjects.iter().map(Subject::calls).collect();
    let mut runs = Vec::new();
    for calls in &calls {
        runs.extend(calls.iter().flat_map(|call| call_runs(settings, call)));
    }
    let readings = interleaved(settings.slices, &mut runs);
    let mut rest = readings.as_slice();
    let mut measured = Vec::new();
    for (subject, calls) in subjects.iter().zip(&calls) {
        let (own, after) = rest.split_at(HOST_CALLS.len() * calls.len());
        measured.push(Measured::of(subject, calls, own));
        rest = after;
    }
    measured
}

impl Measured {
    /// Sorts the readings of one graph: each call's by candidate, the last call being that which reads and
    /// checks.
    fn of(subject: &Subject, calls: &[Call], readings: &[Readings]) -> Measured {
        let facts = subject.facts;
        let graph = format!("{}, {facts} facts", subject.name);
        let each = calls.iter().zip(readings.chunks(HOST_CALLS.len()));
        let mut calls: Vec<Line> =
            each.map(|(call, own)| Line::of(format!("{graph}: {}", call.name), own)).collect();
        calls.pop();
        let mean = Line::mean(format!("{graph}: mean of five"), &calls[..IN_MEAN]);
        let read_and_check = Line::of(graph, &readings[readings.len() - HOST_CALLS.len()..]);
        Measured { facts, calls, mean, read_and_check }
    }
}

/// All candidates give the same number and leave the same output; then a run for each.
fn call_runs<'a>(settings: &Settings, call: &'a Call) -> Vec<Run<'a>> {
    let answered = HOST_CALLS.map(|host_call| {
        let mut output = vec![0x5a; LONGEST_IMAGE];
        (host_call(call.image, &call.ticket, &mut output), output)
    });
    assert!(answered.iter().all(|other| *other == answered[0]), "{} differs", call.name);
    assert_eq!(answered[0].0 as u16, call.number, "{}", call.name);
    let run = |host_call| repeated(settings.slice, called(host_call, call));
    HOST_CALLS.into_iter().map(run).collect()
}

fn called<'a>(host_call: HostCall, call: &'a Call) -> impl FnMut() -> u64 + 'a {
    let mut output = vec![0; LONGEST_IMAGE];
    move || host_call(call.image, &call.ticket, &mut output)
}
