//! The vectors on the independent implementation: the W3C suites, the worked examples of the papers, members
//! and their classes, exclusive properties, operators' tickets, tables and images, and texts of triples. The
//! operators' tickets are run by the proved calls too, and so are tickets asked about and committed, which
//! `independent_previews` has on the independent implementation.

mod generator;
mod independent;
mod vector_files;

use generator::calls::{run_singly, HostCall};
use independent::host::{host_operator_call, host_operator_list_call};
use independent::image::{body, facts_in, read, write};
use independent::operator::{apply_operator, apply_operator_list};
use independent::programs::{print_answers, run_tickets};
use independent::rules::{first_broken, name_of};
use independent::table::{check, facts_of, fresh_table, MOST_WORDS};
use independent::ticket::{apply, Answer};
use independent::triples::{read_triples, write_triples};
use vector_files::{
    class_cases, database, exclusive_cases, image_cases, ntriples_files, operator_cases, paper_cases,
    preview_cases, suite_cases, triples_cases, ImageCase, OperatorCase, PaperCase, PreviewCall, PreviewCase,
    TicketCase, TriplesCase,
};
use vimelosa_host::{ask_raw, call_operator_list_raw, call_operator_raw, commit_raw, Graph, LONGEST_IMAGE};

#[test]
fn suites_have_57_cases_papers_72_and_classes_49() {
    assert_eq!((suite_cases().len(), paper_cases().len(), class_cases().len()), (57, 72, 49));
}

#[test]
fn exclusive_properties_have_84_cases_and_images_165() {
    assert_eq!((exclusive_cases().len(), image_cases().len()), (84, 165));
}

#[test]
fn operators_have_64_cases() {
    assert_eq!(operator_cases().len(), 64);
}

#[test]
fn previews_have_95_cases() {
    assert_eq!(preview_cases().len(), 95);
}

#[test]
fn triples_have_250_cases_and_the_suite_of_them_70_files() {
    assert_eq!((triples_cases().len(), ntriples_files().len()), (250, 70));
}

/// The words of facts in a table of so many words.
fn table(words: &[u32], length: usize) -> Vec<u32> {
    let mut table = words.to_vec();
    table.resize(length, 0);
    table
}

#[test]
fn triples_cases_give_their_answers() {
    for case in triples_cases() {
        match case {
            TriplesCase::Read { name, text, lent, answer, words } => {
                let mut found = vec![0xff; lent];
                assert_eq!(read_triples(&text, &mut found), answer, "{name}");
                let left = if answer == 0 { table(&words, lent) } else { vec![0xff; lent] };
                assert_eq!(found, left, "{name}");
            }
            TriplesCase::Write { name, words, lent, answer, text } => {
                let mut found = vec![0xff; lent];
                let (number, length) = write_triples(&table(&words, MOST_WORDS), &mut found);
                assert_eq!((number, length), (answer, text.len()), "{name}");
                let (written, untouched) = found.split_at(length);
                assert_eq!(written, text, "{name}");
                assert!(untouched.iter().all(|byte| *byte == 0xff), "{name}");
            }
        }
    }
}

#[test]
fn ntriples_files_are_outside_the_profile_but_the_empty_one() {
    for file in ntriples_files() {
        let mut found = vec![0xff; MOST_WORDS];
        assert_eq!(read_triples(&file.text, &mut found), file.answer, "{}", file.name);
        assert!(found.iter().all(|word| *word == 0xff), "{}", file.name);
        assert_eq!(file.answer, if file.text.is_empty() { 3 } else { 15 }, "{}", file.name);
    }
}

#[test]
fn suite_cases_give_their_answers() {
    for case in suite_cases() {
        let (answers, _) = run_tickets(&case.list);
        let numbers: Vec<u8> = answers.iter().map(|answer| answer.number).collect();
        assert_eq!(numbers, case.numbers, "{}", case.name);
    }
}

#[test]
fn suite_cases_leave_their_words() {
    for case in suite_cases() {
        let (_, words) = run_tickets(&case.list);
        for word in &case.present {
            assert!(words.contains(word), "{} lacks {word:08x}", case.name);
        }
        for word in &case.absent {
            assert!(!words.contains(word), "{} has {word:08x}", case.name);
        }
    }
}

/// The case's list with the tickets of D before it where it starts from D, and how many tickets those are.
fn whole_list(case: &PaperCase) -> (Vec<u8>, usize) {
    let before = if case.from_database { database() } else { Vec::new() };
    ([before.as_slice(), case.list.as_slice()].concat(), before.len() / 5)
}

#[test]
fn paper_cases_give_their_answers() {
    for case in paper_cases() {
        let (list, before) = whole_list(&case);
        let (answers, words) = run_tickets(&list);
        let found: Vec<[usize; 3]> =
            answers[before..].iter().map(|a| [usize::from(a.number), a.added, a.removed]).collect();
        match &case.answers {
            Some(expected) => assert_eq!(&found, expected, "{}", case.name),
            None => assert!(found.iter().all(|answer| answer[0] == 0), "{}", case.name),
        }
        if let Some(facts) = case.facts {
            assert_eq!(words.len(), facts, "{}", case.name);
        }
    }
}

/// The table gives the case's answers, ticket by ticket, and has its words at the end.
fn run_case(case: &TicketCase, mut found: Vec<u32>, call: fn(&mut [u32], &[u8]) -> Answer) {
    let answers = case.list.chunks(5).map(|ticket| call(&mut found, ticket));
    let answers: Vec<[usize; 3]> =
        answers.map(|answer| [answer.number.into(), answer.added, answer.removed]).collect();
    assert_eq!(answers, case.answers, "{}", case.name);
    assert_eq!(found, table(&case.left, case.words), "{}", case.name);
}

/// The answer numbers of a case's tickets.
fn numbers_of(case: &TicketCase) -> Vec<u8> {
    case.answers.iter().map(|answer| answer[0] as u8).collect()
}

#[test]
fn ticket_cases_give_their_answers_and_leave_their_words() {
    for case in class_cases().into_iter().chain(exclusive_cases()) {
        run_case(&case, fresh_table(case.words), apply);
    }
}

/// By single calls, and at once.
#[test]
fn operator_cases_give_their_answers_and_leave_their_words() {
    for OperatorCase { before, case } in operator_cases() {
        let mut found = fresh_table(case.words);
        let accepted = before.chunks(5).all(|ticket| apply(&mut found, ticket).number == 0);
        assert!(accepted, "{}", case.name);
        run_case(&case, found.clone(), apply_operator);
        let mut answers = vec![0xff; case.answers.len() + 1];
        assert_eq!(apply_operator_list(&mut found, &case.list, &mut answers).number, 0, "{}", case.name);
        assert_eq!(answers, [numbers_of(&case), vec![0xff]].concat(), "{}", case.name);
        assert_eq!(found, table(&case.left, case.words), "{}", case.name);
    }
}

/// The graph that tickets leave of a fresh one.
fn graph_after(list: &[u8]) -> Graph {
    let mut graph = Graph::fresh();
    let tickets: Vec<_> = list.chunks(5).map(|ticket| ticket.try_into().unwrap()).collect();
    graph.apply_all_or_none(&tickets).unwrap();
    graph
}

/// Those on 2,048 words, as many as the calls across the C interface have, by the proved calls and by the
/// independent ones.
#[test]
fn operator_cases_across_the_c_interface() {
    for OperatorCase { before, case } in operator_cases() {
        if case.words != MOST_WORDS {
            continue;
        }
        let graph = graph_after(&before);
        for call in [call_operator_raw as HostCall, host_operator_call] {
            let (numbers, left) = run_singly(call, graph.image(), &case.list);
            let answers: Vec<[usize; 3]> = numbers.into_iter().map(first_parts).collect();
            assert_eq!(answers, case.answers, "{}", case.name);
            assert_eq!(words_in(&left), case.left, "{}", case.name);
        }
        for call in [call_operator_list_raw, host_operator_list_call] {
            let (mut answers, mut output) = (vec![0xff; case.answers.len()], vec![0xff; LONGEST_IMAGE]);
            let number = call(graph.image(), &case.list, &mut answers, &mut output);
            let accepted = answers.iter().filter(|number| **number == 0).count();
            assert_eq!(first_parts(number), [0, accepted, answers.len() - accepted], "{}", case.name);
            assert_eq!(answers, numbers_of(&case), "{}", case.name);
            assert_eq!(words_in(&output[..(number >> 48) as usize]), case.left, "{}", case.name);
        }
    }
}

/// The proved call writes the case's words to the front of each run, and no other.
fn ask_case(case: &PreviewCase, lent: [usize; 2], written: &[Vec<u32>; 2]) {
    let [mut added, mut removed] = lent.map(|length| vec![u32::MAX; length]);
    let number = ask_raw(graph_after(&case.before).image(), &case.ticket, &mut added, &mut removed);
    assert_eq!((first_parts(number), number >> 48), (case.answer, 0), "{}", case.name);
    for (run, written) in [added, removed].iter().zip(written) {
        let (front, rest) = run.split_at(written.len());
        assert!(front == written && rest.iter().all(|word| *word == u32::MAX), "{}", case.name);
    }
}

/// The proved call leaves the words of the runs put in and taken out, or nothing if it refuses.
fn commit_case(case: &PreviewCase, [added, removed]: &[Vec<u32>; 2]) {
    let (graph, mut output) = (graph_after(&case.before), vec![0xff; LONGEST_IMAGE]);
    let number = commit_raw(graph.image(), &case.ticket, added, removed, &mut output);
    assert_eq!(first_parts(number), case.answer, "{}", case.name);
    let (image, rest) = output.split_at((number >> 48) as usize);
    assert!(rest.iter().all(|byte| *byte == 0xff), "{}", case.name);
    assert_eq!(image.is_empty(), case.answer[0] != 0, "{}", case.name);
    if !image.is_empty() {
        let mut left = words_in(graph.image());
        left.retain(|word| !removed.contains(word));
        left.extend(added);
        left.sort_unstable();
        assert_eq!(words_in(image), left, "{}", case.name);
    }
}

/// Those on 2,048 words by the proved calls.
#[test]
fn preview_cases_across_the_c_interface() {
    for case in preview_cases().into_iter().filter(|case| case.words == MOST_WORDS) {
        match &case.call {
            PreviewCall::Ask { lent, written } => ask_case(&case, *lent, written),
            PreviewCall::Commit { runs } => commit_case(&case, runs),
        }
    }
}

/// The first three of the four parts of a call's number.
fn first_parts(number: u64) -> [usize; 3] {
    [0, 16, 32].map(|bits| usize::from((number >> bits) as u16))
}

/// The words of the facts in an image.
fn words_in(image: &[u8]) -> Vec<u32> {
    facts_in(image).expect("the image is good").facts().map(|fact| fact.word()).collect()
}

#[test]
fn image_cases_give_their_answers() {
    for case in image_cases() {
        match case {
            ImageCase::Check { name, words, lent, answer, broken } => {
                let found = table(&words, lent);
                assert_eq!(check(&found), answer, "{name}");
                let rule = facts_of(&found).ok().and_then(|graph| first_broken(&graph)).map(name_of);
                assert_eq!(rule.as_deref(), broken, "{name}");
            }
            ImageCase::Write { name, words, lent, answer, image } => {
                let mut found = vec![0xff; lent];
                let (number, length) = write(&table(&words, MOST_WORDS), &mut found);
                assert_eq!((number, length), (answer, image.len()), "{name}");
                let (written, untouched) = found.split_at(length);
                assert_eq!(written, image, "{name}");
                assert!(untouched.iter().all(|byte| *byte == 0xff), "{name}");
            }
            ImageCase::Read { name, image, lent, answer, words } => {
                let mut found = vec![0xff; lent];
                assert_eq!(read(&image, &mut found), answer, "{name}");
                let left = if answer == 0 { table(&words, lent) } else { vec![0xff; lent] };
                assert_eq!(found, left, "{name}");
            }
            ImageCase::Body { name, image, kind, start, part } => {
                let found = body(&image, kind);
                assert_eq!((found, found.as_ptr()), (&part[..], image[start..].as_ptr()), "{name}");
            }
        }
    }
}

/// Each has the tickets of the first list, each as often.
#[test]
fn rearranged_cases_have_the_same_tickets() {
    let sorted = |list: &[u8]| {
        let mut tickets: Vec<Vec<u8>> = list.chunks(5).map(<[u8]>::to_vec).collect();
        tickets.sort_unstable();
        tickets
    };
    let papers = paper_cases();
    let rearranged = papers.iter().filter(|case| case.name.starts_with("D rearranged"));
    assert_eq!(rearranged.clone().count(), 2);
    for case in rearranged {
        assert_eq!(sorted(&case.list), sorted(&papers[0].list), "{}", case.name);
    }
    for cases in [class_cases(), exclusive_cases()] {
        let is_first = |case: &&TicketCase| case.name == "a list in order";
        let whole = cases.iter().find(is_first).expect("the case is there");
        let rearranged = cases.iter().filter(|case| case.name.starts_with("the list rearranged"));
        assert_eq!(rearranged.clone().count(), 5);
        for case in rearranged {
            assert_eq!(sorted(&case.list), sorted(&whole.list), "{}", case.name);
            let is_whole = case.answers.iter().all(|answer| answer[0] == 0);
            assert_eq!(case.left == whole.left, is_whole, "{}", case.name);
        }
    }
}

#[test]
fn database_rearranged_in_order_has_the_same_words() {
    let cases = paper_cases();
    assert_eq!(cases[2].name, "D rearranged (2), members once their class stands");
    assert_eq!(run_tickets(&cases[0].list).1, run_tickets(&cases[2].list).1);
}

#[test]
fn program_one_prints_the_database() {
    let expected =
        "0 5 0\n0 4 0\n0 4 0\n0 5 0\n0 3 0\n0 3 0\n0 3 0\n0 1 0\n0 5 0\n0 5 0\n0 11 0\n0 4 0\n54\n";
    assert_eq!(print_answers(&database()), expected);
}
