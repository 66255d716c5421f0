//! The program `run_calls` on scripts.

use crate::generator::damage::damaged;
use crate::generator::graphs::{filled, grown, image, overfull, ten_entries};
use crate::generator::operators::any_operator_ticket;
use crate::generator::previews::{ask_line, commit_line, exact_runs, preview_script};
use crate::generator::scripts::{hexadecimal, script, table_line, words_of};
use crate::generator::tickets::{any_ticket, holders, ticket, Ids, ALL_IDS, FEW, PLENTY};
use crate::generator::{rounds, Random};
use crate::independent::script::run_script;
use crate::process::Program;
use crate::vector_files::{class_cases, exclusive_cases, image_cases, operator_cases, preview_cases};
use crate::vector_files::{ImageCase, OperatorCase, PreviewCall, PreviewCase, TicketCase};
use std::collections::BTreeSet;

fn assert_same(program: &Program, script: &str) {
    assert!(script.len() <= 65_536, "the program takes no more");
    let (printed, expected) = (program.output(script.as_bytes()), run_script(script));
    let place = printed.lines().zip(expected.lines()).position(|(line, other)| line != other);
    assert!(printed == expected, "from line {place:?} on of what is printed for\n{script}");
}

/// Of each of the sets of ids in turn, with many deletions.
fn random_script(random: &mut Random, round: usize) -> String {
    let ids = Ids { deletions: 3, ..ALL_IDS[round % 4] };
    script(random, &ids, 120)
}

#[test]
fn on_random_scripts() {
    let program = Program::calls();
    let mut random = Random::for_test("run_calls_on_random_scripts");
    for round in 0..rounds(60) {
        assert_same(&program, &random_script(&mut random, round));
    }
}

/// The random scripts make each call answer 0 and each of its refusals.
#[test]
fn random_scripts_meet_every_answer() {
    let mut random = Random::for_test("run_calls_on_random_scripts");
    let mut met = BTreeSet::new();
    for round in 0..60 {
        let printed = run_script(&random_script(&mut random, round));
        let answers = printed.lines().map(|line| line.split(' ').take(2).collect::<Vec<_>>().join(" "));
        met.extend(answers);
    }
    let answers = [
        ("fresh", &[0, 1][..]),
        ("check", &[0, 1, 2, 3]),
        ("lookup", &[0, 1, 2]),
        ("apply", &[0, 1, 2, 3, 4, 5, 6, 7, 8, 9, 10, 11, 16]),
        ("operator", &[0, 1, 2, 3, 4, 5, 6, 7, 8, 9, 10, 11, 16, 17]),
        ("ask", &[0, 1, 2, 3, 4, 5, 6, 7, 8, 9, 10, 11, 13, 16]),
        ("commit", &[0, 1, 2, 3, 4, 5, 6, 7, 8, 9, 10, 11, 16, 18]),
        ("list", &[0, 1, 2, 3, 14]),
        ("operators", &[0, 1, 2, 3, 14]),
        ("each", &[0, 1, 2, 3, 14]),
        ("records", &[0, 1, 2, 3, 14]),
        ("write", &[0, 1, 2, 3, 13]),
        ("read", &[0, 1, 3, 11, 12]),
    ];
    for (name, numbers) in answers {
        for number in numbers {
            assert!(met.contains(&format!("{name} {number}")), "{name} {number}");
        }
    }
    assert!(["same 0", "same 1", "?"].iter().all(|line| met.contains(*line)));
}

/// A line for each ticket of a list, by the command of this name.
fn ticket_lines(name: &str, list: &[u8]) -> String {
    list.chunks(5).map(|ticket| format!("{name} {}\n", hexadecimal(ticket))).collect()
}

/// What is printed for the tickets of a case, each by the command of this name, and for the words after them.
fn printed_for(name: &str, case: &TicketCase) -> String {
    let answers: String = case.answers.iter().map(|[n, a, r]| format!("{name} {n} {a} {r}\n")).collect();
    let words: String = case.left.iter().map(|word| format!(" {word:08x}")).collect();
    format!("{answers}words{words}\n")
}

/// The cases of members and their classes, and of exclusive properties, on tables of their lengths.
#[test]
fn on_the_classes_and_exclusive_properties() {
    let program = Program::calls();
    for case in class_cases().into_iter().chain(exclusive_cases()) {
        let table = format!("table {:04x} 00000000\nfresh\n", case.words);
        let script = table + &ticket_lines("apply", &case.list) + "words\n";
        let printed = format!("table\nfresh 0\n{}", printed_for("apply", &case));
        assert_eq!(program.output(script.as_bytes()), printed, "{}", case.name);
        assert_eq!(run_script(&script), printed, "{}", case.name);
    }
}

/// The cases of operators' tickets on tables of their lengths, ticket by ticket and then as a list.
#[test]
fn on_the_operators_tickets() {
    let program = Program::calls();
    for OperatorCase { before, case } in operator_cases() {
        let (plain, own) = (ticket_lines("apply", &before), ticket_lines("operator", &case.list));
        let list = format!("operators {:04x} {}", case.answers.len(), hexadecimal(&case.list));
        let start = format!("table {:04x} 00000000\nfresh\n{plain}", case.words);
        let script = format!("{start}keep\n{own}words\nback\n{list}\nwords\n");
        assert_same(&program, &script);

        let singly = printed_for("operator", &case);
        let (_, words) = singly.rsplit_once("words").expect("the words are printed last");
        let accepted = case.answers.iter().filter(|answer| answer[0] == 0).count();
        let numbers: String = case.answers.iter().map(|answer| format!(" {:02x}", answer[0])).collect();
        let refused = case.answers.len() - accepted;
        let listed = format!("operators 0 {accepted} {refused}{numbers}\nwords{words}");
        let printed = program.output(script.as_bytes());
        assert!(printed.ends_with(&format!("keep\n{singly}back\n{listed}")), "{}: {printed}", case.name);
    }
}

/// The words of runs in hexadecimal, a blank before each, and between the runs a stroke.
fn shown_runs([added, removed]: &[Vec<u32>; 2]) -> String {
    let shown = |run: &[u32]| run.iter().map(|word| format!(" {word:08x}")).collect::<String>();
    format!("{} /{}", shown(added), shown(removed))
}

/// What a case asks or commits as a line, and what is printed for it.
fn preview_line(case: &PreviewCase) -> (String, String) {
    let [number, come, go] = case.answer;
    match &case.call {
        PreviewCall::Ask { lent, written } => {
            let mut runs = written.clone();
            runs.iter_mut().zip(lent).for_each(|(run, length)| run.resize(*length, u32::MAX));
            let printed = format!("ask {number} {come} {go}{}\n", shown_runs(&runs));
            (ask_line(*lent, &case.ticket), printed)
        }
        PreviewCall::Commit { runs } => {
            (commit_line(runs, &case.ticket), format!("commit {number} {come} {go}\n"))
        }
    }
}

/// The cases of tickets asked about and committed on tables of their lengths. Only an accepted commit changes
/// a word.
#[test]
fn on_the_previews() {
    let program = Program::calls();
    for case in preview_cases() {
        let (line, printed) = preview_line(&case);
        let start = format!("table {:04x} 00000000\nfresh\n", case.words);
        let before = ticket_lines("apply", &case.before);
        let script = format!("{start}{before}keep\n{line}\nsame\nwords\n");
        assert_same(&program, &script);
        let is_changed = line.starts_with("commit") && case.answer[1..] != [0, 0];
        let expected = format!("keep\n{printed}same {}\n", u8::from(!is_changed));
        let found = program.output(script.as_bytes());
        assert!(found.contains(&expected), "{}: {found}", case.name);
    }
}

/// Tickets asked about and committed in turn on plants, with runs that are exact and others.
#[test]
fn on_previews_in_turn() {
    let program = Program::calls();
    let mut random = Random::for_test("run_calls_on_previews_in_turn");
    for round in 0..rounds(40) {
        let ids = Ids { deletions: 3, ..ALL_IDS[round % 4] };
        assert_same(&program, &preview_script(&mut random, &ids, 3));
    }
}

/// A vector of tables and images as a script, and what is printed for it.
fn script_of(case: &ImageCase) -> (&'static str, String, String) {
    let table = |lent: usize| format!("table {lent:04x} 00000001\nkeep\n");
    match case {
        ImageCase::Check { name, words, lent, answer, broken } => {
            let rule = broken.map_or(String::new(), |rule| format!(" {rule}"));
            (name, table_line(*lent, words) + "\ncheck\n", format!("table\ncheck {answer}{rule}\n"))
        }
        ImageCase::Write { name, words, lent, answer, image } => {
            let spare = if *answer == 0 { lent - image.len() } else { *lent };
            let output = [image.as_slice(), &vec![0xff; spare]].concat();
            let shown: String = output.iter().map(|byte| format!(" {byte:02x}")).collect();
            let script = format!("{}\nwrite {lent:04x}\n", table_line(2048, words));
            (name, script, format!("table\nwrite {answer} {}{shown}\n", image.len()))
        }
        ImageCase::Read { name, image, lent, answer, words } => {
            let left: String = words.iter().map(|word| format!(" {word:08x}")).collect();
            let (command, printed) = match answer {
                0 => ("words", format!("words{left}")),
                _ => ("same", "same 1".to_string()),
            };
            let script = format!("{}read {}\n{command}\n", table(*lent), hexadecimal(image));
            (name, script, format!("table\nkeep\nread {answer}\n{printed}\n"))
        }
        ImageCase::Body { name, image, kind, part, .. } => {
            let shown: String = part.iter().map(|byte| format!(" {byte:02x}")).collect();
            let script = format!("body {kind:04x} {}\n", hexadecimal(image));
            (name, script, format!("body {}{shown}\n", part.len()))
        }
    }
}

#[test]
fn on_the_image_cases() {
    let program = Program::calls();
    for case in image_cases() {
        let (name, script, printed) = script_of(&case);
        assert_eq!(run_script(&script), printed, "{name}");
        assert_eq!(program.output(script.as_bytes()), printed, "{name}");
    }
}

/// Lists about exclusive properties on tables that they fill, by each of the calls, and the check of what is
/// left. The operators' list is run on what the plain one leaves.
#[test]
fn on_exclusive_properties() {
    let program = Program::calls();
    let mut random = Random::for_test("run_calls_on_exclusive_properties");
    for round in 0..rounds(40) {
        let ids = Ids { deletions: 4, ..ALL_IDS[round % 4] };
        let words = words_of(&grown(&mut random, &ids, 10, 60));
        let length = words.len() + random.pick(&[0, 3, 15, 30, 200]);
        let list = holders(&mut random, &ids, 40);
        let mut lines = vec![table_line(length, &words), "keep".to_string()];
        for name in ["list", "each"] {
            lines.push(format!("{name} 0040 {}", hexadecimal(&list)));
            lines.extend(["words", "check"].map(String::from));
            lines.push(format!("operators 0040 {}", hexadecimal(&holders(&mut random, &ids, 20))));
            lines.extend(["words", "check", "write 1000", "back"].map(String::from));
        }
        lines.extend(list.chunks(5).map(|ticket| format!("apply {}", hexadecimal(ticket))));
        lines.extend(["words", "check"].map(String::from));
        assert_same(&program, &(lines.join("\n") + "\n"));
    }
}

/// Tables that are full or nearly so, and tickets, lists and images on them.
#[test]
fn on_full_tables() {
    let program = Program::calls();
    let mut random = Random::for_test("run_calls_on_full_tables");
    let ids = Ids { deletions: 4, ..PLENTY };
    for round in 0..rounds(3) {
        let words = words_of(&filled(&mut random, [2048, 2047, 2040][round % 3]));
        let mut lines = vec![table_line(2048, &words), "check".to_string(), "keep".to_string()];
        lines.extend((0..12).map(|_| format!("apply {}", hexadecimal(&any_ticket(&mut random, &ids)))));
        let mut draw = || any_operator_ticket(&mut random, &ids);
        lines.extend((0..12).map(|_| format!("operator {}", hexadecimal(&draw()))));
        lines.extend(["words", "write 2000", "back", "same"].map(String::from));
        for class in [2, 3, 5] {
            let gone = [2, 1, class, 0, 0];
            let runs = exact_runs(&words, &gone);
            let lengths = [0, runs[1].len() + 2];
            lines.extend([ask_line(lengths, &gone), commit_line(&runs, &gone), "words".to_string()]);
            lines.extend(["commit 0000 0000 0101f00000", "back", "same"].map(String::from));
        }
        let tickets: Vec<u8> = (0..5).flat_map(|_| ticket(&mut random, &ids)).collect();
        for name in ["list", "each", "records", "operators"] {
            lines.extend([
                "back".to_string(),
                format!("{name} 0006 {}", hexadecimal(&tickets)),
                "words".to_string(),
            ]);
        }
        assert_same(&program, &(lines.join("\n") + "\n"));
    }
}

/// More facts than any table has words, in an image that is well formed or not.
#[test]
fn on_overfull_images() {
    let program = Program::calls();
    let mut random = Random::for_test("run_calls_on_overfull_images");
    let whole = image(&overfull());
    let mut lines = vec!["table 0800".to_string(), "fresh".to_string(), "keep".to_string()];
    for bytes in [whole.clone(), damaged(&mut random, &whole), whole[..whole.len() - 1].to_vec()] {
        lines.extend([format!("read {}", hexadecimal(&bytes)), "same".to_string()]);
    }
    for kind in [10, 11] {
        lines.push(format!("body {kind:04x} {}", hexadecimal(&whole)));
    }
    assert_same(&program, &(lines.join("\n") + "\n"));
}

/// Small images changed at every byte, read into tables with room and without.
#[test]
fn on_damaged_images() {
    let program = Program::calls();
    let mut random = Random::for_test("run_calls_on_damaged_images");
    for _ in 0..rounds(6) {
        let graph = grown(&mut random, &FEW, 20, 40);
        let short = random.below(2);
        for whole in [image(&graph), ten_entries(&graph)] {
            let lines = [
                table_line(graph.len() - short, &words_of(&graph)),
                "keep".to_string(),
                format!("damage {}", hexadecimal(&whole)),
                "same\n".to_string(),
            ];
            assert_same(&program, &lines.join("\n"));
        }
    }
}
