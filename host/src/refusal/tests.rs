//! The refusals beside the library's code and docs/REFUSALS.md.

use super::*;
use std::iter::successors;

/// The next refusal by number. The `match` has no other arm: a new variant is in every test below.
fn after(refusal: &Refusal) -> Option<Refusal> {
    let next = match refusal {
        Refusal::BadSize => Refusal::BadLayout,
        Refusal::BadLayout => Refusal::Inconsistent { rule: Rule::R18 },
        Refusal::Inconsistent { .. } => Refusal::BadLength,
        Refusal::BadLength => Refusal::BadOperation,
        Refusal::BadOperation => Refusal::BadKind,
        Refusal::BadKind => Refusal::BadIds,
        Refusal::BadIds => Refusal::Guarded,
        Refusal::Guarded => Refusal::UnknownProperty,
        Refusal::UnknownProperty => Refusal::Clashing,
        Refusal::Clashing => Refusal::TooMany,
        Refusal::TooMany => Refusal::Malformed,
        Refusal::Malformed => Refusal::ShortOutput { needed: 84 },
        Refusal::ShortOutput { .. } => Refusal::FewAnswers,
        Refusal::FewAnswers => Refusal::OutsideProfile,
        Refusal::OutsideProfile => Refusal::UnknownClass,
        Refusal::UnknownClass => Refusal::NotForOperators,
        Refusal::NotForOperators => Refusal::OutOfDate,
        Refusal::OutOfDate => return None,
    };
    Some(next)
}

fn all() -> Vec<Refusal> {
    successors(Some(Refusal::BadSize), after).collect()
}

/// The variant's name.
fn name(refusal: Refusal) -> String {
    let shown = format!("{refusal:?}");
    shown.split(' ').next().unwrap_or_default().to_string()
}

/// The name in the library's definitions.
fn snake_case(refusal: Refusal) -> String {
    let mut snake = String::new();
    for letter in name(refusal).chars() {
        if letter.is_uppercase() && !snake.is_empty() {
            snake.push('_');
        }
        snake.push(letter.to_ascii_lowercase());
    }
    snake
}

#[test]
fn refusals_are_numbered_from_1_on_and_have_a_sentence_each() {
    for (number, refusal) in (1..).zip(all()) {
        assert_eq!(refusal.number(), number);
        assert!(refusal.sentence().ends_with('.'));
        let start = format!("refusal {number}: {}", refusal.sentence());
        match refusal {
            Refusal::Inconsistent { rule } => {
                let rest = format!(" Rule 18: {}", rule.sentence());
                assert_eq!(refusal.to_string(), start + &rest);
            }
            Refusal::ShortOutput { .. } => assert_eq!(refusal.to_string(), start + " It needs 84 bytes."),
            _ => assert_eq!(refusal.to_string(), start),
        }
    }
}

/// Every number but 3 and 13, which have more to tell, gives its refusal; no other number gives any.
#[test]
fn numbers_tell_their_refusals() {
    for number in 0..=u16::MAX {
        let told = all().into_iter().find(|refusal| refusal.number() == number);
        let alone = told.filter(|_| number != INCONSISTENT && number != SHORT_OUTPUT);
        assert_eq!(Refusal::of_number(number), alone);
    }
}

/// `BadIds` is `BadIds` in the library's code too, with the same number, and `bad_ids` in its definitions. No
/// refusal is in one list and not in the others.
#[test]
fn refusals_have_one_name() {
    let code = include_str!("../../../crates/table/src/refusals.rt");
    let in_code: Vec<&str> = code.lines().filter(|line| line.contains(" = ") && line.ends_with(',')).collect();
    let variant = |refusal: &Refusal| format!("    {} = {},", name(*refusal), refusal.number());
    assert_eq!(in_code, all().iter().map(variant).collect::<Vec<_>>());

    let document = include_str!("../../../docs/REFUSALS.md");
    let rows = document.lines().filter(|line| line.starts_with("| ") && line.matches('`').count() == 6);
    let in_document: Vec<&str> = rows.map(|row| row.rsplit_once(" | ").unwrap().0).collect();
    let row = |refusal: &Refusal| {
        let name = name(*refusal);
        let definition = snake_case(*refusal);
        format!("| {} | `{definition}` | `{name}`", refusal.number())
    };
    assert_eq!(in_document, all().iter().map(row).collect::<Vec<_>>());
}
