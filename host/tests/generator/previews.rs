//! Tickets to look at before they are agreed to: the tables, the tickets, the lengths of the runs to ask
//! with, and the runs to commit, exact and not.

use super::graphs::{classes_of, grown};
use super::scripts::{hexadecimal, table_line, words_of};
use super::tickets::{any_ticket, bad_ticket, ticket_with, Ids};
use super::Random;
use crate::independent::fact::{Fact, CLASS, DOMAIN, RANGE};
use crate::independent::graph::Graph;
use crate::independent::list::TICKET_LENGTH;
use crate::independent::preview::{ask, commit};
use crate::independent::table::{facts_of, MOST_WORDS};
use crate::independent::ticket::{apply, asked_by, changed, is_guarded};

/// The added run and the removed run.
pub type Runs = [Vec<u32>; 2];

/// A plant's graph.
pub fn plant(random: &mut Random, ids: &Ids) -> Graph {
    let tickets = random.below(60);
    grown(random, ids, tickets, MOST_WORDS)
}

/// The graph's table, with no word more than facts or a few.
pub fn table_of(random: &mut Random, graph: &Graph) -> Vec<u32> {
    let mut table = words_of(graph);
    let free = random.pick(&[0, 1, 2, 4, 8, 30, 100]);
    table.resize((table.len() + free).min(MOST_WORDS), 0);
    table
}

/// A ticket of any sort: most are likely to be accepted, some are bad, some have another length, some delete
/// what may not go.
pub fn preview_ticket(random: &mut Random, ids: &Ids, graph: &Graph) -> Vec<u8> {
    match random.below(12) {
        0 => bad_ticket(random, ids).to_vec(),
        1 => any_ticket(random, ids),
        2 => deletion_of(random, graph.facts().collect()).to_vec(),
        _ => likely_ticket(random, ids, graph).to_vec(),
    }
}

/// A ticket that is likely to be accepted: half of them delete what is there, one in three of
/// these a class.
pub fn likely_ticket(random: &mut Random, ids: &Ids, graph: &Graph) -> [u8; 5] {
    let can_go = |fact: &Fact| fact.kind != DOMAIN && fact.kind != RANGE && !is_guarded(*fact);
    let there: Vec<Fact> = graph.facts().filter(can_go).collect();
    let classes: Vec<Fact> = there.iter().copied().filter(|fact| fact.kind == CLASS).collect();
    if random.is_one_in(2) || there.is_empty() {
        return likely_insertion(random, ids, graph);
    }
    let is_class = random.is_one_in(3) && !classes.is_empty();
    deletion_of(random, if is_class { classes } else { there })
}

/// The deletion of one of the facts.
fn deletion_of(random: &mut Random, facts: Vec<Fact>) -> [u8; 5] {
    let gone = random.pick(&facts);
    [2, gone.kind, gone.a, gone.b, gone.c]
}

/// The first of six tickets that adds something to the graph, or the last.
fn likely_insertion(random: &mut Random, ids: &Ids, graph: &Graph) -> [u8; 5] {
    let classes = classes_of(graph);
    let mut drawn = [0; 5];
    for _ in 0..6 {
        drawn = ticket_with(random, ids, &classes);
        let new = asked_by(&drawn).and_then(|asked| changed(graph, &asked));
        if new.map_or(false, |new| new.len() > graph.len()) {
            break;
        }
    }
    drawn
}

/// What asking with runs that are long enough writes; nothing if the ticket is refused.
pub fn exact_runs(table: &[u32], ticket: &[u8]) -> Runs {
    let (mut added, mut removed) = (vec![0; MOST_WORDS], vec![0; MOST_WORDS]);
    let answer = ask(table, ticket, &mut added, &mut removed);
    added.truncate(answer.added);
    removed.truncate(answer.removed);
    [added, removed]
}

/// How many words the runs have to ask with: most as many as are written, else one less, more, or none.
pub fn run_lengths(random: &mut Random, exact: &Runs) -> [usize; 2] {
    [exact[0].len(), exact[1].len()].map(|length| match random.below(8) {
        0 => length.saturating_sub(1),
        1 => 0,
        2 | 3 => length + 1 + random.below(9),
        _ => length,
    })
}

/// Runs to commit: half of them exact, the others damaged or of another state of the table.
pub fn some_runs(random: &mut Random, ids: &Ids, table: &[u32], ticket: &[u8]) -> Runs {
    match random.below(4) {
        0 => damaged_runs(random, exact_runs(table, ticket)),
        1 => stale_runs(random, ids, table, ticket),
        _ => exact_runs(table, ticket),
    }
}

/// Runs that were exact before or after another ticket.
pub fn stale_runs(random: &mut Random, ids: &Ids, table: &[u32], ticket: &[u8]) -> Runs {
    let graph = facts_of(table).expect("the table is laid out");
    let mut other = table.to_vec();
    apply(&mut other, &likely_ticket(random, ids, &graph));
    exact_runs(&other, ticket)
}

/// Runs with one change; now and then it changes nothing.
pub fn damaged_runs(random: &mut Random, mut runs: Runs) -> Runs {
    let filled = usize::from(runs[0].is_empty());
    match random.below(8) {
        0 => runs.swap(0, 1),
        1 => runs[1 - filled].push(random.pick(&[0, 0x0100_0000])),
        _ => damage(random, &mut runs[filled]),
    }
    runs
}

/// A word changed, dropped, doubled, put in another place or put in; a 0 behind or in front.
fn damage(random: &mut Random, run: &mut Vec<u32>) {
    if run.is_empty() {
        return run.push(random.pick(&[0, 0x0102_0000, u32::MAX]));
    }
    let (place, other) = (random.below(run.len()), random.below(run.len()));
    match random.below(7) {
        0 => run[place] ^= 1 << random.below(32),
        1 => {
            run.remove(place);
        }
        2 => run.insert(place, run[place]),
        3 => run.swap(place, other),
        4 => run.insert(place, run[other] + 1),
        5 => run.insert(0, 0),
        _ => run.push(0),
    }
}

/// A script of so many tables, on each of which eight tickets are asked about and committed in turn.
pub fn preview_script(random: &mut Random, ids: &Ids, tables: usize) -> String {
    let mut script = String::new();
    for _ in 0..tables {
        let graph = plant(random, ids);
        let mut table = table_of(random, &graph);
        script += &format!("{}\n", table_line(table.len(), &words_of(&graph)));
        for _ in 0..8 {
            script += &preview_lines(random, ids, &mut table);
        }
    }
    script
}

/// A ticket asked about, committed on the table as well, and the words that are left.
fn preview_lines(random: &mut Random, ids: &Ids, table: &mut [u32]) -> String {
    let graph = facts_of(table).expect("the table is laid out");
    let ticket = preview_ticket(random, ids, &graph);
    let lengths = run_lengths(random, &exact_runs(table, &ticket));
    let runs = some_runs(random, ids, table, &ticket);
    let cut = cut_line(random, &runs, &ticket);
    commit(table, &ticket, &runs[0], &runs[1]);
    let lines = [ask_line(lengths, &ticket), cut, commit_line(&runs, &ticket), "words".to_string()];
    lines.map(|line| format!("{line}\n")).concat()
}

/// The line that asks with runs of so many words.
pub fn ask_line([added, removed]: [usize; 2], ticket: &[u8]) -> String {
    format!("ask {added:04x} {removed:04x} {}", hexadecimal(ticket))
}

/// The line that commits the runs.
pub fn commit_line(runs: &Runs, ticket: &[u8]) -> String {
    format!("commit {}", hexadecimal(&commit_bytes(runs, ticket)))
}

/// A commit whose last bytes are missing, at least so many that five are not left for the ticket.
fn cut_line(random: &mut Random, runs: &Runs, ticket: &[u8]) -> String {
    let bytes = commit_bytes(runs, ticket);
    let end = bytes.len() - ticket.len().saturating_sub(TICKET_LENGTH);
    let left = random.below(end);
    format!("commit {}", hexadecimal(&bytes[..left]))
}

fn commit_bytes([added, removed]: &Runs, ticket: &[u8]) -> Vec<u8> {
    let lengths = [added, removed].map(|run| (run.len() as u16).to_be_bytes()).concat();
    let words = added.iter().chain(removed).flat_map(|word| word.to_be_bytes());
    lengths.into_iter().chain(words).chain(ticket.iter().copied()).collect()
}
