//! A ticket in two calls across C, asking and committing, beside the single call and beside the same by plain
//! safe Rust.

use crate::candidates::{HostCall, HOST_CALLS};
use crate::clock::{interleaved, repeated, Run};
use crate::plant::SECOND_CLASS;
use crate::rivals::fact::CLASS;
use crate::rivals::sorted::Sorted;
use crate::rivals::{accepted, Rival};
use crate::settings::Settings;
use crate::subjects::{Call, Subject};
use crate::tables::{filled, table_of, Line, Unit};
use vimelosa_host::{ask_raw, commit_raw, LONGEST_IMAGE, MOST_FACTS};

/// Image, ticket, added run, removed run.
type Ask = fn(&[u8], &[u8], &mut [u32], &mut [u32]) -> u64;

/// Image, ticket, added run, removed run, output.
type Commit = fn(&[u8], &[u8], &[u32], &[u32], &mut [u8]) -> u64;

/// The single call, and what is timed beside it, proved and by the rival.
const SINGLE: HostCall = HOST_CALLS[0];
const ASKS: [Ask; 2] = [ask_raw, sorted_ask];
const COMMITS: [Commit; 2] = [commit_raw, sorted_commit];

/// So many readings for each ticket: the single call's, and two each.
const READINGS: usize = 1 + ASKS.len() + COMMITS.len();

/// What is measured.
const WORK: &str =
    "A ticket in two calls across C. Asking reads and checks an image and writes the words of the facts that \
     would come and go; committing reads and checks it again, applies the ticket if these are still the \
     words, and writes the new image. The tickets: the insertion above, and the deletion of a class under a \
     root. Beside both the proved single call of the same ticket, and the same by `sorted`: a copy of the \
     table, the ticket on it, the words that the one has and the other lacks.";

/// The part of the report.
pub fn part(settings: &Settings, subjects: &[Subject]) -> String {
    let (asking, committing) = measure(settings, subjects);
    let shown = |name: &str, lines: &[Line]| {
        table_of(name, &["proved", "single call", "sorted"], Unit::Microseconds, lines)
    };
    format!(
        "\n## Asking and committing\n\n{}\n{}\n{}",
        filled(WORK),
        shown("asking", &asking),
        shown("committing", &committing)
    )
}

/// A line for each ticket, of asking and of committing: all calls agree, then they take turns.
fn measure(settings: &Settings, subjects: &[Subject]) -> (Vec<Line>, Vec<Line>) {
    let tickets: Vec<(String, Call)> = subjects.iter().flat_map(tickets_of).collect();
    let runs: Vec<Runs> = tickets.iter().map(|(_, call)| Runs::of(call)).collect();
    let mut timed: Vec<Run> =
        tickets.iter().zip(&runs).flat_map(|((_, call), runs)| timed(settings, call, runs)).collect();
    let readings = interleaved(settings.slices, &mut timed);
    let (mut asking, mut committing) = (Vec::new(), Vec::new());
    for ((name, _), own) in tickets.iter().zip(readings.chunks(READINGS)) {
        let line = |columns: [usize; 3]| Line::of(name.clone(), &columns.map(|at| own[at].clone()));
        asking.push(line([1, 0, 2]));
        committing.push(line([3, 0, 4]));
    }
    (asking, committing)
}

/// The tickets of a graph, each with its name: the insertion of the host call, and the deletion of a class.
fn tickets_of(subject: &Subject) -> Vec<(String, Call<'_>)> {
    let insertion = subject.calls().swap_remove(0);
    let ticket = vec![2, CLASS, SECOND_CLASS, 0, 0];
    let deletion = Call { name: "deletion of a class", image: subject.image(), ticket, number: 0 };
    let graph = format!("{}, {} facts", subject.name, subject.facts);
    [insertion, deletion].into_iter().map(|call| (format!("{graph}: {}", call.name), call)).collect()
}

/// What a ticket adds and removes.
struct Runs {
    added: Vec<u32>,
    removed: Vec<u32>,
}

impl Runs {
    /// Both write the same to the runs and leave the rest; both commit as the single call does.
    fn of(call: &Call) -> Runs {
        let asked = ASKS.map(|ask| {
            let (mut added, mut removed) = (vec![7; MOST_FACTS], vec![7; MOST_FACTS]);
            (ask(call.image, &call.ticket, &mut added, &mut removed), added, removed)
        });
        assert_eq!(asked[0], asked[1], "{}", call.name);
        let (number, mut added, mut removed) = asked.into_iter().next().expect("there are two");
        let part = |bits: u32| usize::from((number >> bits) as u16);
        added.truncate(part(16));
        removed.truncate(part(32));
        let mut single = vec![0x5a; LONGEST_IMAGE];
        let expected = SINGLE(call.image, &call.ticket, &mut single);
        for commit in COMMITS {
            let mut output = vec![0x5a; LONGEST_IMAGE];
            let number = commit(call.image, &call.ticket, &added, &removed, &mut output);
            assert!((number, &output) == (expected, &single) && number as u16 == 0, "{}", call.name);
        }
        Runs { added, removed }
    }
}

/// The single call, asking and committing, in the order of the readings.
fn timed<'a>(settings: &Settings, call: &'a Call, runs: &'a Runs) -> Vec<Run<'a>> {
    let (image, ticket) = (call.image, &call.ticket[..]);
    let mut output = vec![0; LONGEST_IMAGE];
    let single = repeated(settings.slice, move || SINGLE(image, ticket, &mut output));
    let asks = ASKS.map(|ask| {
        let (mut added, mut removed) = (vec![0; MOST_FACTS], vec![0; MOST_FACTS]);
        repeated(settings.slice, move || ask(image, ticket, &mut added, &mut removed))
    });
    let commits = COMMITS.map(|commit| {
        let mut output = vec![0; LONGEST_IMAGE];
        repeated(settings.slice, move || commit(image, ticket, &runs.added, &runs.removed, &mut output))
    });
    [single].into_iter().chain(asks).chain(commits).collect()
}

/// What a ticket leaves of an image's table, and the words that come and go; or the refusal.
fn sorted_preview(image: &[u8], ticket: &[u8]) -> Result<(Sorted, Vec<u32>, Vec<u32>), u8> {
    let old = Sorted::read(image)?;
    let mut new = old.clone();
    let answer = new.apply(ticket);
    if answer.number != 0 {
        return Err(answer.number);
    }
    let (added, removed) = (beyond(new.words(), old.words()), beyond(old.words(), new.words()));
    Ok((new, added, removed))
}

/// The words that the others lack; both ascend.
fn beyond(words: &[u32], others: &[u32]) -> Vec<u32> {
    let mut others = others.iter().peekable();
    let mut is_other = |word: u32| {
        while others.next_if(|other| **other < word).is_some() {}
        others.peek() == Some(&&word)
    };
    words.iter().copied().filter(|word| !is_other(*word)).collect()
}

fn sorted_ask(image: &[u8], ticket: &[u8], added: &mut [u32], removed: &mut [u32]) -> u64 {
    let (_, come, go) = match sorted_preview(image, ticket) {
        Ok(preview) => preview,
        Err(refusal) => return refusal.into(),
    };
    match (added.get_mut(..come.len()), removed.get_mut(..go.len())) {
        (Some(added), Some(removed)) => {
            added.copy_from_slice(&come);
            removed.copy_from_slice(&go);
            accepted([come.len(), go.len(), 0])
        }
        _ => 13,
    }
}

fn sorted_commit(image: &[u8], ticket: &[u8], added: &[u32], removed: &[u32], output: &mut [u8]) -> u64 {
    let (new, come, go) = match sorted_preview(image, ticket) {
        Ok(preview) => preview,
        Err(refusal) => return refusal.into(),
    };
    if (&come[..], &go[..]) != (added, removed) {
        return 18;
    }
    match new.write(output) {
        Ok(length) => accepted([come.len(), go.len(), length]),
        Err(refusal) => refusal.into(),
    }
}
