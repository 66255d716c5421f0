//! The name that a misspelt word comes nearest to.

/// The nearest of some names, the first of several as near; nothing if none is near enough. `Pump` and
/// `pump` are no distance apart.
pub fn nearest<'a>(word: &str, names: impl Iterator<Item = &'a str>) -> Option<&'a str> {
    let word = letters_of(word);
    let with_distance = names.filter_map(|name| {
        let letters = letters_of(name);
        let distance = distance(&word, &letters);
        is_near(distance, word.len().max(letters.len())).then_some((distance, name))
    });
    with_distance.min_by_key(|(distance, _)| *distance).map(|(_, name)| name)
}

/// A third of the longer word may differ, or one letter, but not the whole word.
fn is_near(distance: usize, longer: usize) -> bool {
    distance <= (longer / 3).max(1) && distance < longer
}

fn letters_of(word: &str) -> Vec<char> {
    word.to_lowercase().chars().collect()
}

/// How many letters are to be put in, taken out or changed, or two neighbours exchanged, to make one word of
/// the other; no place is changed twice (optimal string alignment).
fn distance(from: &[char], to: &[char]) -> usize {
    // The distances from the beginnings of `from`, of two, one and no letters less, to those of `to`.
    let (mut before, mut last): (Vec<usize>, Vec<usize>) = (Vec::new(), (0..=to.len()).collect());
    for place in 1..=from.len() {
        let mut row = vec![place];
        for at in 1..=to.len() {
            let changed = last[at - 1] + usize::from(from[place - 1] != to[at - 1]);
            let mut least = changed.min(last[at] + 1).min(row[at - 1] + 1);
            if place > 1 && at > 1 && from[place - 2..place] == [to[at - 1], to[at - 2]] {
                least = least.min(before[at - 2] + 1);
            }
            row.push(least);
        }
        before = std::mem::replace(&mut last, row);
    }
    last[to.len()]
}

#[cfg(test)]
mod tests {
    use super::*;

    fn between(from: &str, to: &str) -> usize {
        distance(&letters_of(from), &letters_of(to))
    }

    fn nearest_of<'a>(word: &str, names: &[&'a str]) -> Option<&'a str> {
        nearest(word, names.iter().copied())
    }

    #[test]
    fn distances() {
        let cases = [
            ("Pump", "Pump", 0),
            ("pump", "PUMP", 0),
            ("Pmup", "Pump", 1),
            ("Pum", "Pump", 1),
            ("Pummp", "Pump", 1),
            ("Pomp", "Pump", 1),
            ("Vlvae", "Valve", 2),
            ("", "Pump", 4),
            ("kitten", "sitting", 3),
            // The exchanged letters are not changed again.
            ("ca", "abc", 3),
            ("Kühler", "Kuehler", 2),
            ("泵", "泵站", 1),
        ];
        for (from, to, distance) in cases {
            assert_eq!((between(from, to), between(to, from)), (distance, distance), "{from} {to}");
        }
    }

    #[test]
    fn nearest_of_several() {
        assert_eq!(nearest_of("Pmup", &["Machine", "Pump", "Motor"]), Some("Pump"));
        assert_eq!(nearest_of("GaerPmup", &["Pump", "GearPump", "GearPumps"]), Some("GearPump"));
        // Of two as near the first.
        assert_eq!(nearest_of("Tan", &["Tank", "Tang"]), Some("Tank"));
        assert_eq!(nearest_of("Tan", &["Tang", "Tank"]), Some("Tang"));
        assert_eq!(nearest_of("pump", &["Lump", "PUMP", "Pump"]), Some("PUMP"));
    }

    /// A third of the longer word may differ, and one letter of a short one.
    #[test]
    fn far_names_are_not_told() {
        assert_eq!(nearest_of("Conveyor", &["Conveyer"]), Some("Conveyer"));
        assert_eq!(nearest_of("abcdefghi", &["abcdefxyz"]), Some("abcdefxyz"));
        assert_eq!(nearest_of("abcdefghi", &["abcdevxyz"]), None);
        assert_eq!(nearest_of("P9", &["P7"]), Some("P7"));
        assert_eq!(nearest_of("P9", &["Q7"]), None);
        assert_eq!(nearest_of("x", &["y"]), None);
        assert_eq!(nearest_of("x", &["X"]), Some("X"));
        assert_eq!(nearest_of("Valve", &[]), None);
        assert_eq!(nearest_of("Valve", &["Machine", "Resource"]), None);
    }
}
