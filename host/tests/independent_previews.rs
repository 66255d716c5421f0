//! Asking and committing on the independent implementation, beside its single call: the vectors, the order of
//! the refusals, tables, tickets and runs of every sort, the calls across the C interface, the commands of a
//! script.

mod generator;
mod independent;
mod vector_files;

use generator::graphs::{image, overfull};
use generator::previews::{ask_line, commit_line, exact_runs, plant, preview_script, preview_ticket};
use generator::previews::{run_lengths, some_runs, table_of, Runs};
use generator::tickets::ALL_IDS;
use generator::{rounds, Random};
use independent::fact::{class, literal};
use independent::graph::Graph;
use independent::host::{host_ask, host_call, host_commit, packed};
use independent::image::read;
use independent::preview::{ask, commit};
use independent::script::run_script;
use independent::table::{facts_of, fresh_graph, fresh_table, MOST_WORDS};
use independent::ticket::{apply, Answer};
use vector_files::{preview_cases, PreviewCall, PreviewCase};

/// What every lent word and byte holds at first.
const LENT: u32 = 0xa5a5_a5a5;
const LENT_BYTE: u8 = 0xa5;

/// The answer of asking with runs of so many words, and what these hold then.
fn asked(table: &[u32], ticket: &[u8], lengths: [usize; 2]) -> (Answer, Runs) {
    let [mut added, mut removed] = lengths.map(|length| vec![LENT; length]);
    let answer = ask(table, ticket, &mut added, &mut removed);
    (answer, [added, removed])
}

/// The answer of committing the runs, and the words that are left.
fn committed(table: &[u32], ticket: &[u8], [added, removed]: &Runs) -> (Answer, Vec<u32>) {
    let mut after = table.to_vec();
    let answer = commit(&mut after, ticket, added, removed);
    (answer, after)
}

/// The answer of the single call, and the words that are left.
fn applied(table: &[u32], ticket: &[u8]) -> (Answer, Vec<u32>) {
    let mut after = table.to_vec();
    let answer = apply(&mut after, ticket);
    (answer, after)
}

/// Runs of so many words with these at their fronts.
fn written_to(lengths: [usize; 2], [added, removed]: &Runs) -> Runs {
    let run = |words: &[u32], length: usize| [words, &vec![LENT; length - words.len()]].concat();
    [run(added, lengths[0]), run(removed, lengths[1])]
}

/// The table without the words that go and with those that come.
fn moved(table: &[u32], [added, removed]: &Runs) -> Vec<u32> {
    let stays = |word: &&u32| **word != 0 && !removed.contains(word);
    let mut words: Vec<u32> = table.iter().filter(stays).chain(added).copied().collect();
    words.sort_unstable();
    words.resize(table.len(), 0);
    words
}

/// The table of a case.
fn start_of(case: &PreviewCase) -> Vec<u32> {
    let mut table = fresh_table(case.words);
    let accepted = case.before.chunks(5).all(|ticket| apply(&mut table, ticket).number == 0);
    assert!(accepted, "{}", case.name);
    table
}

#[test]
fn cases_give_their_answers_and_leave_their_words() {
    for case in preview_cases() {
        let (table, [number, added, removed]) = (start_of(&case), case.answer);
        let expected = Answer { number: number as u8, added, removed };
        match &case.call {
            PreviewCall::Ask { lent, written } => {
                let (answer, runs) = asked(&table, &case.ticket, *lent);
                assert_eq!((answer, runs), (expected, written_to(*lent, written)), "{}", case.name);
            }
            PreviewCall::Commit { runs } => {
                let after = if number == 0 { moved(&table, runs) } else { table.clone() };
                assert_eq!(committed(&table, &case.ticket, runs), (expected, after), "{}", case.name);
            }
        }
    }
}

/// The cases on 2,048 words, as many as the calls across the C interface have.
#[test]
fn cases_across_c() {
    for case in preview_cases().into_iter().filter(|case| case.words == MOST_WORDS) {
        let (table, [number, added, removed]) = (start_of(&case), case.answer);
        let held = image(&facts_of(&table).expect("the table is laid out"));
        match &case.call {
            PreviewCall::Ask { lent, written } => {
                let [mut come, mut go] = lent.map(|length| vec![LENT; length]);
                let found = host_ask(&held, &case.ticket, &mut come, &mut go);
                assert_eq!(found, packed(number as u8, added, removed, 0), "{}", case.name);
                assert_eq!([come, go], written_to(*lent, written), "{}", case.name);
            }
            PreviewCall::Commit { runs } => {
                let mut output = vec![LENT_BYTE; 7_000];
                let found = host_commit(&held, &case.ticket, &runs[0], &runs[1], &mut output);
                let length = (found >> 48) as usize;
                assert_eq!(found, packed(number as u8, added, removed, length), "{}", case.name);
                assert!(output[length..].iter().all(|byte| *byte == LENT_BYTE), "{}", case.name);
                if number == 0 {
                    let mut left = vec![0; MOST_WORDS];
                    assert_eq!(read(&output[..length], &mut left), 0, "{}", case.name);
                    assert_eq!(left, moved(&table, runs), "{}", case.name);
                }
            }
        }
    }
}

/// 1, 2 and 3 come before all that the ticket and the runs say.
#[test]
fn a_bad_table_is_refused_first() {
    let fresh = fresh_table(MOST_WORDS);
    let too_long = [&fresh[..], &[0]].concat();
    let tables = [(&[][..], 1), (&too_long, 1), (&[0, 0x0100_0000], 2), (&[0, 0], 3), (&fresh[1..], 3)];
    for (table, number) in tables {
        for ticket in [&[1, 1, 9, 0, 0][..], &[1, 1]] {
            let (refused, runs) = (Answer::refused(number), [vec![LENT; 2], vec![]]);
            assert_eq!(asked(table, ticket, [2, 0]), (refused, runs.clone()));
            assert_eq!(committed(table, ticket, &runs), (refused, table.to_vec()));
        }
    }
}

/// Asking answers as the single call; what it writes is the difference. 13 is told of a short run only.
#[test]
fn asking_tells_what_the_single_call_does() {
    let mut random = Random::for_test("previews_asking");
    let (mut met, mut changed) = ([0; 19], [0; 2]);
    for round in 0..rounds(3_000) {
        let ids = &ALL_IDS[round % 4];
        let graph = plant(&mut random, ids);
        let table = table_of(&mut random, &graph);
        let ticket = preview_ticket(&mut random, ids, &graph);
        let (answer, after) = applied(&table, &ticket);
        let exact = exact_runs(&table, &ticket);
        assert_eq!([exact[0].len(), exact[1].len()], [answer.added, answer.removed], "{ticket:?}");
        assert_eq!(moved(&table, &exact), after, "{ticket:?}");
        assert!(exact.iter().all(|run| run.windows(2).all(|pair| pair[0] < pair[1])), "{ticket:?}");
        let lengths = run_lengths(&mut random, &exact);
        let is_short = lengths[0] < answer.added || lengths[1] < answer.removed;
        let expected = if is_short {
            (Answer::refused(13), written_to(lengths, &[vec![], vec![]]))
        } else {
            (answer, written_to(lengths, &exact))
        };
        assert_eq!(asked(&table, &ticket, lengths), expected, "{ticket:?}");
        met[usize::from(expected.0.number)] += 1;
        changed[0] += usize::from(expected.0.added > 0);
        changed[1] += usize::from(expected.0.removed > 1);
    }
    assert!([0, 4, 5, 6, 7, 8, 9, 10, 11, 13, 16].iter().all(|number| met[*number] > 0), "{met:?}");
    assert!(changed.iter().all(|count| *count > 300), "{changed:?}");
}

/// Exact runs are committed as by the single call, others are out of date, unless the ticket is refused.
#[test]
fn committing_does_what_was_asked_or_nothing() {
    let mut random = Random::for_test("previews_committing");
    let mut met = [0; 19];
    for round in 0..rounds(3_000) {
        let ids = &ALL_IDS[round % 4];
        let graph = plant(&mut random, ids);
        let table = table_of(&mut random, &graph);
        let ticket = preview_ticket(&mut random, ids, &graph);
        let runs = some_runs(&mut random, ids, &table, &ticket);
        let single = applied(&table, &ticket);
        let is_old = single.0.number == 0 && runs != exact_runs(&table, &ticket);
        let expected = if is_old { (Answer::refused(18), table.clone()) } else { single };
        assert_eq!(committed(&table, &ticket, &runs), expected, "{ticket:?} {runs:x?}");
        met[usize::from(expected.0.number)] += 1;
    }
    assert!([0, 18].iter().all(|number| met[*number] > 300), "{met:?}");
    assert!([4, 5, 6, 7, 8, 9, 10, 11, 16].iter().all(|number| met[*number] > 0), "{met:?}");
}

/// 12, 11, 3, the ticket's own, then 13 of the runs; or 18, then 13 of the output. All that is lent stays.
#[test]
fn calls_across_c_refuse_in_order() {
    let whole = image(&fresh_graph());
    let bad = [
        (whole[1..].to_vec(), 12),
        (image(&overfull()), 11),
        (image(&fresh_graph().without(class(0))), 3),
        (image(&Graph::of([class(0), literal(9)])), 10),
    ];
    let (ticket, come) = ([1, 1, 9, 0, 0], [0x0109_0000, 0x0509_0000]);
    let (mut added, mut removed, mut output) = ([LENT; 3], [LENT; 1], [LENT_BYTE; 80]);
    for (held, number) in &bad {
        assert_eq!(host_ask(held, &ticket, &mut [], &mut []), *number);
        assert_eq!(host_commit(held, &ticket, &[], &[], &mut []), *number);
    }
    assert_eq!(host_ask(&whole, &ticket, &mut added[..1], &mut removed), 13);
    assert_eq!(host_commit(&whole, &ticket, &come, &[0], &mut []), 18);
    assert_eq!(host_commit(&whole, &ticket, &come, &[], &mut output[..whole.len() + 2]), 13);
    assert_eq!((added, removed, output), ([LENT; 3], [LENT; 1], [LENT_BYTE; 80]));
    assert_eq!(host_ask(&whole, &ticket, &mut added, &mut removed), packed(0, 2, 0, 0));
    assert_eq!((added, removed), ([come[0], come[1], LENT], [LENT]));
    let mut single = output;
    let number = host_commit(&whole, &ticket, &come, &[], &mut output);
    assert_eq!((number, output), (host_call(&whole, &ticket, &mut single), single));
}

#[test]
fn commands_print_what_is_asked_and_committed() {
    let lines = [
        ("table 0006 01000000 00000000", "table"),
        ("ask 0005 0000 0105090300", "ask 0 5 0 01030000 01090000 05030000 05090000 05090300 /"),
        ("ask 0004 0002 0105090300", "ask 13 0 0 ffffffff ffffffff ffffffff ffffffff / ffffffff ffffffff"),
        ("ask 0000 0000", "ask 4 0 0 /"),
        ("ask 0001", "ask 4 0 0 ffffffff /"),
        ("ask", "ask 4 0 0 /"),
        ("commit 0002 0000 01090000 05090000 0101090000", "commit 0 2 0"),
        ("commit 0000 0000 0101090000", "commit 0 0 0"),
        ("commit 0000 0001 00000000 0101090000", "commit 18 0 0"),
        ("commit 0000 0002 01090000 0509", "commit 4 0 0"),
        ("commit 0001", "commit 4 0 0"),
        ("words", "words 01000000 01090000 05090000"),
        ("ask 0001 0003 02 01 09 00 00", "ask 0 0 2 ffffffff / 01090000 05090000 ffffffff"),
        ("commit 0000 0002 01090000 05090000 0201090000", "commit 0 0 2"),
        ("words", "words 01000000"),
    ];
    let script: String = lines.iter().map(|(line, _)| format!("{line}\n")).collect();
    let printed: String = lines.iter().map(|(_, printed)| format!("{printed}\n")).collect();
    assert_eq!(run_script(&script), printed);
    assert_eq!(ask_line([1, 3], &[2, 1, 9, 0, 0]), "ask 0001 0003 0201090000");
    assert_eq!(commit_line(&[vec![], vec![0x0109_0000]], &[2]), "commit 000000010109000002");
    assert_eq!(run_script("ask ffff 0801\n").matches(" ffffffff").count(), 2 * MOST_WORDS);
}

/// The random scripts meet every answer that a ticket and its runs get on a good table.
#[test]
fn random_scripts_meet_every_answer() {
    let mut random = Random::for_test("previews_scripts");
    let scripts = ALL_IDS.map(|ids| preview_script(&mut random, &ids, 90));
    let printed = run_script(&scripts.concat());
    let met = |name: &str, number: u8| printed.matches(&format!("\n{name} {number} ")).count();
    let numbers = [0, 4, 5, 6, 7, 8, 9, 10, 11, 16];
    assert!(numbers.iter().all(|number| met("ask", *number) > 0 && met("commit", *number) > 0));
    assert!(met("ask", 13) > 20 && met("commit", 18) > 20);
}
