//! The check, row by row.

use super::loaded::Loaded;
use super::rows::*;
use super::set::Set;
use crate::rivals::fact::*;

/// The check of a table: refusals 1, 2, 3, or 0.
pub fn check(table: &[u32]) -> u8 {
    if table.is_empty() || table.len() > MOST_WORDS {
        return 1;
    }
    let count = table.iter().position(|word| *word == 0).unwrap_or(table.len());
    let (words, zeros) = table.split_at(count);
    let ascending = words.windows(2).all(|pair| pair[0] < pair[1]);
    if !ascending || !words.iter().all(|fact| is_fact(*fact)) || zeros.iter().any(|word| *word != 0) {
        return 2;
    }
    let mut loaded = Loaded::empty();
    for facts in runs_of(words, 24) {
        let ids = facts.iter().map(|fact| fact.to_be_bytes()).map(|[_, a, b, c]| [a, b, c]);
        loaded.put_all((facts[0] >> 24) as u8, ids);
    }
    if is_consistent(&loaded) {
        0
    } else {
        3
    }
}

pub fn is_consistent(loaded: &Loaded) -> bool {
    sorts_are_apart(&loaded.rows)
        && classes_are_an_order(loaded)
        && properties_have_one_of_each(loaded)
        && properties_are_an_order(loaded)
        && members_go_up(loaded)
        && loaded.valued.is_part_of(&loaded.rows.sort(PROPERTY))
        && loaded.valued.ids().all(|p| values_fit(&loaded.rows, p))
        && exclusive_have_one_holder(&loaded.rows)
}

/// Rules 4, 5, 6, H1 and H2.
fn sorts_are_apart(rows: &Rows) -> bool {
    let [classes, properties, individuals, literals] =
        [CLASS, PROPERTY, INDIVIDUAL, LITERAL].map(|sort| rows.sort(sort));
    let shared = classes.and(properties).or(classes.or(properties).and(individuals));
    let others = classes.or(properties).or(individuals);
    classes.has(RESOURCE) && shared.is_empty() && others.and(literals).is_empty()
}

/// What is over each id over x is over x, and x is not: rules 18 and 19, or 20 and 21.
fn is_closed(rows: &Rows, of: usize, x: u8, within: &Set) -> bool {
    let above = rows.row(of, x);
    !above.has(x) && above.is_part_of(within) && above.ids().all(|y| rows.row(of, y).is_part_of(&above))
}

/// Rules 7, 13, 18 and 19.
fn classes_are_an_order(loaded: &Loaded) -> bool {
    let rows = &loaded.rows;
    let classes = rows.sort(CLASS);
    let below = rows.row(BELOW, RESOURCE).with(RESOURCE);
    loaded.linked.is_part_of(&classes)
        && classes.is_part_of(&below)
        && loaded.linked.ids().all(|x| is_closed(rows, ABOVE, x, &classes))
}

/// Rules 9, 10, 15, 16 and 17.
fn properties_have_one_of_each(loaded: &Loaded) -> bool {
    let rows = &loaded.rows;
    let properties = rows.sort(PROPERTY);
    let classes = rows.sort(CLASS);
    let ends_are_classes = |p: u8| {
        let range = rows.range[usize::from(p)];
        classes.has(rows.domain[usize::from(p)]) && (range == MARK || classes.has(range))
    };
    !loaded.has_double
        && loaded.with_domain == properties
        && loaded.with_range == properties
        && properties.ids().all(ends_are_classes)
}

/// Rules 8, 20, 21, 22, 23 and H4. The mark has no links, so it is under nothing but itself.
fn properties_are_an_order(loaded: &Loaded) -> bool {
    let rows = &loaded.rows;
    let properties = rows.sort(PROPERTY);
    let narrower = |p: u8, q: u8| {
        [&rows.domain, &rows.range].iter().all(|ends| {
            let (low, high) = (ends[usize::from(p)], ends[usize::from(q)]);
            low == high || rows.row(ABOVE, low).has(high)
        })
    };
    loaded.linked_properties.is_part_of(&properties)
        && loaded
            .linked_properties
            .ids()
            .all(|p| is_closed(rows, OVER, p, &properties) && rows.row(OVER, p).ids().all(|q| narrower(p, q)))
}

/// Rules 11, 14 and 26.
fn members_go_up(loaded: &Loaded) -> bool {
    let rows = &loaded.rows;
    let (classes, individuals) = (rows.sort(CLASS), rows.sort(INDIVIDUAL));
    loaded.placed.is_part_of(&individuals)
        && individuals.is_part_of(&rows.row(MEMBERS, RESOURCE))
        && loaded.placed.ids().all(|x| {
            let held = rows.row(CLASSES, x);
            held.is_part_of(&classes) && held.ids().all(|y| rows.row(ABOVE, y).is_part_of(&held))
        })
}

/// Rules E1 and E2.
fn exclusive_have_one_holder(rows: &Rows) -> bool {
    let exclusive = rows.sort(EXCLUSIVE);
    exclusive.is_part_of(&rows.sort(PROPERTY)) && !exclusive.ids().any(|p| rows.has_two_holders(p))
}

/// Rules 12, 24, 25, 27 and H3, of all values for a property.
fn values_fit(rows: &Rows, p: u8) -> bool {
    let subjects = rows.row(SUBJECTS, p);
    let fitting = match rows.range[usize::from(p)] {
        MARK => rows.sort(LITERAL),
        class => rows.row(MEMBERS, class),
    };
    let over = rows.row(OVER, p);
    subjects.is_part_of(&rows.row(MEMBERS, rows.domain[usize::from(p)]))
        && subjects.ids().all(|x| {
            let values = rows.values(p, x);
            values.is_part_of(&fitting) && over.ids().all(|q| values.is_part_of(&rows.values(q, x)))
        })
}
