//! Program one on lists of tickets.

use crate::generator::tickets::{holders, list, Ids, ALL_IDS, PLENTY};
use crate::generator::{rounds, Random};
use crate::independent::programs::print_answers;
use crate::independent::table::MOST_WORDS;
use crate::process::Program;
use crate::vector_files::{class_cases, database, exclusive_cases, paper_cases, suite_cases};

fn assert_same(program: &Program, list: &[u8]) {
    assert_eq!(program.output(list), print_answers(list), "{list:02x?}");
}

#[test]
fn on_random_lists() {
    let program = Program::one();
    let mut random = Random::for_test("program_one_on_random_lists");
    for round in 0..rounds(320) {
        let list = list(&mut random, &ALL_IDS[round % 4], 80);
        assert_same(&program, &list);
    }
}

/// Four properties, Excl, links and values that come and go: most lists meet 10.
#[test]
fn on_exclusive_properties() {
    let program = Program::one();
    let mut random = Random::for_test("program_one_on_exclusive_properties");
    let mut clashes = 0;
    for round in 0..rounds(200) {
        let ids = Ids { deletions: 3 + round % 5, ..ALL_IDS[round % 4] };
        let list = holders(&mut random, &ids, 80);
        assert_same(&program, &list);
        clashes += print_answers(&list).lines().filter(|line| line.starts_with("10 ")).count();
    }
    assert!(clashes > 500, "{clashes}");
}

/// A class; then classes one over the other above it, linked before or after its first members; members until
/// no more fits; literals for the last words; tickets on the full table that clash or name an unknown class;
/// then tickets of all sorts.
fn filling_list(random: &mut Random) -> Vec<u8> {
    let depth = 14 + random.below(6) as u8;
    let mut tickets: Vec<[u8; 5]> = (2..depth).map(|c| [1, 5, c, c + 1, 0]).collect();
    tickets.extend([[1, 2, 50, depth, depth], [1, 2, 51, 2, 1]]);
    tickets.extend((80..=140).map(|x| [1, 9, x, 2, 0]));
    random.shuffle(&mut tickets);
    tickets.insert(0, [1, 1, 2, 0, 0]);
    tickets.extend((141..=230).map(|x| [1, 9, x, 2, 0]));
    tickets.extend((231..=255).map(|x| [1, 4, x, 0, 0]));
    tickets.extend([
        [1, 3, 2, 0, 0],
        [1, 5, 3, 2, 0],
        [1, 9, 50, 2, 0],
        [1, 1, 51, 0, 0],
        [1, 10, 80, 81, 51],
        [1, 9, 80, 60, 0],
        [1, 9, 3, 60, 0],
        [1, 9, 80, 50, 0],
    ]);
    let ids = Ids { deletions: 12, ..PLENTY };
    [tickets.concat(), list(random, &ids, 100)].concat()
}

#[test]
fn on_lists_that_fill_the_table() {
    let program = Program::one();
    let mut random = Random::for_test("program_one_fill");
    for _ in 0..rounds(4) {
        assert_same(&program, &filling_list(&mut random));
    }
}

#[test]
fn lists_that_fill_the_table_meet_refusals_16_10_and_11() {
    let mut random = Random::for_test("program_one_fill");
    let printed = print_answers(&filling_list(&mut random));
    let count = |number: &str| printed.lines().filter(|line| line.starts_with(number)).count();
    assert!(count("16 ") >= 3 && count("10 ") >= 5 && count("11 ") > 10, "{printed}");
}

/// A chain of classes and one of properties, the links, a member and a value in any order.
#[test]
fn on_deep_trees() {
    let program = Program::one();
    let mut random = Random::for_test("program_one_on_deep_trees");
    for _ in 0..rounds(4) {
        let mut tickets: Vec<[u8; 5]> = (2..40).map(|c| [1, 5, c, c + 1, 0]).collect();
        tickets.extend((100..120).map(|p| [1, 6, p, p + 1, 0]));
        tickets.extend([[1, 9, 200, 2, 0], [1, 10, 200, 201, 100]]);
        random.shuffle(&mut tickets);
        let mut made: Vec<[u8; 5]> = (100..=120).map(|p| [1, 2, p, 40, 0]).collect();
        made.push([1, 1, 2, 0, 0]);
        let deletions = [[2, 5, 2, 20, 0], [2, 6, 101, 110, 0], [2, 9, 200, 30, 0], [2, 1, 40, 0, 0]];
        assert_same(&program, &[made, tickets, deletions.to_vec()].concat().concat());
    }
}

#[test]
fn on_every_length() {
    let program = Program::one();
    let list = database();
    for length in 0..=list.len() {
        assert_same(&program, &list[..length]);
    }
}

#[test]
fn on_the_suites() {
    let program = Program::one();
    for case in suite_cases() {
        let printed = program.output(&case.list);
        let numbers: Vec<&str> =
            printed.lines().filter_map(|line| line.split_once(' ')).map(|(n, _)| n).collect();
        let expected: Vec<String> = case.numbers.iter().map(u8::to_string).collect();
        assert_eq!(numbers, expected, "{}", case.name);
        assert_eq!(printed, print_answers(&case.list), "{}", case.name);
    }
}

#[test]
fn on_the_papers() {
    let program = Program::one();
    for case in paper_cases() {
        let before = if case.from_database { database() } else { Vec::new() };
        let printed = program.output(&[before.as_slice(), &case.list].concat());
        let lines: Vec<&str> = printed.lines().skip(before.len() / 5).collect();
        let (facts, answers) = lines.split_last().expect("the last line is the count");
        let line = |[n, a, r]: &[usize; 3]| format!("{n} {a} {r}");
        match &case.answers {
            Some(expected) => {
                assert_eq!(answers, expected.iter().map(line).collect::<Vec<_>>(), "{}", case.name)
            }
            None => assert!(answers.iter().all(|answer| answer.starts_with("0 ")), "{}", case.name),
        }
        assert_eq!(answers.len(), case.list.len() / 5, "{}", case.name);
        if let Some(count) = case.facts {
            assert_eq!(*facts, count.to_string(), "{}", case.name);
        }
    }
}

/// Those on 2,048 words, as many as the program has.
#[test]
fn on_the_classes_and_exclusive_properties() {
    let program = Program::one();
    let cases = class_cases().into_iter().chain(exclusive_cases());
    for case in cases.filter(|case| case.words == MOST_WORDS) {
        let lines = case.answers.iter().map(|[n, a, r]| format!("{n} {a} {r}\n"));
        let printed = format!("{}{}\n", lines.collect::<String>(), case.left.len());
        assert_eq!(program.output(&case.list), printed, "{}", case.name);
    }
}
