//! The rules that a graph keeps, by the numbers of document 01; E1 and E2 are document 02's.

use std::fmt;

/// The number of the first rule; 1 to 3 are met by the range of the ids.
const FIRST: u16 = 4;

/// The enum, its list and its sentences from one list of the rules.
macro_rules! rules {
    ($($rule:ident: $sentence:literal,)*) => {
        /// A rule of a consistent graph: 4 to 27 of the paper's Fig. 3, H1 to H4 of document 01, and E1 and
        /// E2, the two of document 02 for exclusive properties. More may follow, so a `match` on it has an
        /// arm for the others.
        #[derive(Clone, Copy, PartialEq, Eq, PartialOrd, Ord, Hash, Debug)]
        #[non_exhaustive]
        pub enum Rule {
            $(#[doc = $sentence] $rule,)*
        }

        impl Rule {
            /// All rules, in the order in which a graph is checked.
            pub const ALL: &'static [Rule] = &[$(Rule::$rule,)*];

            /// What the rule asks of a graph, in a sentence.
            ///
            /// ```
            /// use vimelosa_host::Rule;
            /// assert_eq!(Rule::R18.sentence(), "A subclass of a subclass of a class is a subclass of it.");
            /// ```
            pub fn sentence(self) -> &'static str {
                match self {
                    $(Rule::$rule => $sentence,)*
                }
            }
        }
    };
}

rules! {
    R4: "No id is both a class and a property.",
    R5: "No id is both a class and an individual.",
    R6: "No id is both a property and an individual.",
    R7: "Both ends of a subclass link are classes.",
    R8: "Both ends of a subproperty link are properties.",
    R9: "A domain is a class, and what has it is a property.",
    R10: "A range is a class or Literal, and what has it is a property.",
    R11: "A member is an individual, and what it is a member of is a class.",
    R12: "An individual has a value for a property; the value is an individual or a literal.",
    R13: "Every class but Resource is a subclass of Resource.",
    R14: "Every individual is a member of Resource.",
    R15: "Every property has a domain and a range.",
    R16: "No property has two domains.",
    R17: "No property has two ranges.",
    R18: "A subclass of a subclass of a class is a subclass of it.",
    R19: "No two classes are subclasses of each other, and none is one of itself.",
    R20: "A subproperty of a subproperty of a property is a subproperty of it.",
    R21: "No two properties are subproperties of each other, and none is one of itself.",
    R22: "A subproperty's domain is that of the property above it, or a subclass of that.",
    R23: "A subproperty's range is that of the property above it, or a subclass of that.",
    R24: "Whoever has a value for a property is a member of the property's domain.",
    R25: "A value for a property whose range is a class is a member of that class.",
    R26: "A member of a subclass of a class is a member of the class.",
    R27: "A value for a subproperty of a property is a value for the property.",
    H1: "Resource is a class.",
    H2: "No literal is a class, a property or an individual.",
    H3: "A value for a property whose range is Literal is a literal.",
    H4: "A subproperty and the property above it both have the range Literal, or neither has.",
    E1: "What is exclusive is a property.",
    E2: "No two individuals have the same value for an exclusive property.",
}

impl Rule {
    /// The rule's place in the order in which a graph is checked, counted from 1.
    ///
    /// ```
    /// use vimelosa_host::Rule;
    /// assert_eq!(Rule::R4.place(), 1);
    /// assert_eq!(Rule::H4.place(), 28);
    /// assert_eq!(Rule::E2.place(), 30);
    /// ```
    pub fn place(self) -> u16 {
        self as u16 + 1
    }
}

/// By name: `rule 18`, `H1`, `E2`.
///
/// ```
/// use vimelosa_host::Rule;
/// assert_eq!(Rule::R18.to_string(), "rule 18");
/// assert_eq!(Rule::H1.to_string(), "H1");
/// ```
impl fmt::Display for Rule {
    fn fmt(&self, f: &mut fmt::Formatter<'_>) -> fmt::Result {
        match self {
            Rule::H1 | Rule::H2 | Rule::H3 | Rule::H4 | Rule::E1 | Rule::E2 => write!(f, "{self:?}"),
            _ => write!(f, "rule {}", FIRST + self.place() - 1),
        }
    }
}

/// The rule at a place, counted from 1, or the place itself where there is none.
///
/// ```
/// use vimelosa_host::Rule;
/// assert_eq!(Rule::try_from(15), Ok(Rule::R18));
/// assert_eq!(Rule::try_from(31), Err(31));
/// ```
impl TryFrom<u16> for Rule {
    type Error = u16;

    fn try_from(place: u16) -> Result<Rule, u16> {
        Rule::ALL.iter().copied().find(|rule| rule.place() == place).ok_or(place)
    }
}

#[cfg(test)]
mod tests {
    use super::*;

    #[test]
    fn rules_stand_in_the_papers_order() {
        for (place, rule) in (1..).zip(Rule::ALL.iter().copied()) {
            assert_eq!(rule.place(), place);
            assert_eq!(Rule::try_from(place), Ok(rule));
            let named = format!("{rule:?}");
            assert_eq!(rule.to_string(), named.replace('R', "rule "));
        }
        assert_eq!(Rule::try_from(0), Err(0));
        assert_eq!(Rule::try_from(u16::MAX), Err(u16::MAX));
        assert_eq!((Rule::H4.place(), Rule::E1.place(), Rule::E2.place()), (28, 29, 30));
    }

    #[test]
    fn each_rule_has_a_sentence_of_its_own() {
        let mut sentences: Vec<&str> = Rule::ALL.iter().map(|rule| rule.sentence()).collect();
        assert!(sentences.iter().all(|sentence| sentence.ends_with('.')));
        sentences.sort_unstable();
        assert!(sentences.windows(2).all(|two| two[0] != two[1]));
    }
}
