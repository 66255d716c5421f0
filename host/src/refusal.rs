//! The reasons for which a call refuses, with the numbers of documents 01 and 02. Each has the name of the
//! definition, `bad_ids`, and of the library's variant, `BadIds`. docs/REFUSALS.md has who can cause it and
//! which calls give it.

use crate::Rule;
use std::error::Error;
use std::fmt;

/// Why a call refused, each with document 01's number and words, from 15 on with document 02's. A refusal
/// leaves all lent memory as it was. More will follow, 19 and 20, so a `match` on it has an arm for the
/// others.
#[derive(Clone, Copy, PartialEq, Eq, Hash, Debug)]
#[non_exhaustive]
pub enum Refusal {
    /// 1: table of no words or above 2,048.
    BadSize,
    /// 2: table not laid out: the facts ascending, none twice, then zeros to the end.
    BadLayout,
    /// 3: table not consistent; in reading, the image's or the text's graph.
    Inconsistent {
        /// The first rule that it breaks, in the paper's order.
        rule: Rule,
    },
    /// 4: a ticket's length not 5.
    BadLength,
    /// 5: operation, which is neither 1 (insert) nor 2 (delete).
    BadOperation,
    /// 6: kind, which is not 1 to 11, or is 7 or 8.
    BadKind,
    /// 7: an unused byte not 0, or id 1 anywhere but as c of an insertion of kind 2.
    /// [`Range::class`](crate::Range::class) answers it too, for id 1.
    BadIds,
    /// 8: deletion of Cl(0), or of CSub or CI with b = 0, present or not.
    Guarded,
    /// 9: inserting PSub with a or b not a property of the table, PI with c not one, or Excl with a not one.
    UnknownProperty,
    /// 10: inserting where no consistent graph holds table and asked facts; so too where two individuals
    /// would have one value for an exclusive property.
    Clashing,
    /// 11: the new graph (in reading, the image's or the text's) has more facts than the table has words.
    TooMany,
    /// 12: image malformed.
    Malformed,
    /// 13: output shorter than the image or the text. [`ask_raw`](crate::ask_raw) gives it too, for a run
    /// shorter than the words to go to it.
    ShortOutput {
        /// The length of the image or the text: an output of that many bytes is long enough.
        needed: usize,
    },
    /// 14: fewer answer bytes than tickets, or more tickets than a list call counts.
    FewAnswers,
    /// 15: a line of the text outside the profile of N-Triples.
    OutsideProfile,
    /// 16: class unknown: inserting CI with b not a class of the table. It stands between 9 and 10.
    UnknownClass,
    /// 17: kind not for operators, who have 3, 4, 9 and 10. The operators' calls alone give it; there it
    /// follows 7.
    NotForOperators,
    /// 18: runs out of date: what was shown of a ticket is not exactly what it would do to the graph now.
    /// Committing alone gives it; there it follows 11.
    OutOfDate,
}

/// The number of [`Refusal::Inconsistent`], whose rule it does not tell.
pub(crate) const INCONSISTENT: u16 = 3;

/// The number of [`Refusal::ShortOutput`], whose length it does not tell.
pub(crate) const SHORT_OUTPUT: u16 = 13;

/// The others, which their number tells.
const TOLD_BY_NUMBER: [Refusal; 16] = [
    Refusal::BadSize,
    Refusal::BadLayout,
    Refusal::BadLength,
    Refusal::BadOperation,
    Refusal::BadKind,
    Refusal::BadIds,
    Refusal::Guarded,
    Refusal::UnknownProperty,
    Refusal::Clashing,
    Refusal::TooMany,
    Refusal::Malformed,
    Refusal::FewAnswers,
    Refusal::OutsideProfile,
    Refusal::UnknownClass,
    Refusal::NotForOperators,
    Refusal::OutOfDate,
];

impl Refusal {
    /// The refusal of a number, if the number tells it.
    pub(crate) fn of_number(number: u16) -> Option<Refusal> {
        TOLD_BY_NUMBER.into_iter().find(|refusal| refusal.number() == number)
    }

    /// The number of document 01 or 02.
    ///
    /// ```
    /// use vimelosa_host::Refusal;
    /// assert_eq!(Refusal::Clashing.number(), 10);
    /// ```
    pub fn number(self) -> u16 {
        match self {
            Refusal::BadSize => 1,
            Refusal::BadLayout => 2,
            Refusal::Inconsistent { .. } => INCONSISTENT,
            Refusal::BadLength => 4,
            Refusal::BadOperation => 5,
            Refusal::BadKind => 6,
            Refusal::BadIds => 7,
            Refusal::Guarded => 8,
            Refusal::UnknownProperty => 9,
            Refusal::Clashing => 10,
            Refusal::TooMany => 11,
            Refusal::Malformed => 12,
            Refusal::ShortOutput { .. } => SHORT_OUTPUT,
            Refusal::FewAnswers => 14,
            Refusal::OutsideProfile => 15,
            Refusal::UnknownClass => 16,
            Refusal::NotForOperators => 17,
            Refusal::OutOfDate => 18,
        }
    }

    /// What is wrong, in a sentence for the one who caused it.
    ///
    /// ```
    /// use vimelosa_host::Refusal;
    /// assert_eq!(Refusal::Malformed.sentence(), "The image is malformed.");
    /// ```
    pub fn sentence(self) -> &'static str {
        match self {
            Refusal::BadSize => "The table has no words or more than 2,048.",
            Refusal::BadLayout => "The table is not facts in ascending order followed by zeros.",
            Refusal::Inconsistent { .. } => "The graph breaks a rule.",
            Refusal::BadLength => "The ticket is not five bytes long.",
            Refusal::BadOperation => "The ticket neither inserts nor deletes.",
            Refusal::BadKind => "The ticket names a kind that no ticket can have.",
            Refusal::BadIds => "An unused byte is not 0, or the mark Literal stands out of place.",
            Refusal::Guarded => "A ticket cannot delete Resource, or a link or a membership to it.",
            Refusal::UnknownProperty => "The ticket uses a property that the graph does not have.",
            Refusal::Clashing => "The ticket clashes with what the graph holds.",
            Refusal::TooMany => "The graph would have more facts than the table has room for.",
            Refusal::Malformed => "The image is malformed.",
            Refusal::ShortOutput { .. } => "The output is too short.",
            Refusal::FewAnswers => "There are fewer answer bytes than tickets, or more than 65,535 tickets.",
            Refusal::OutsideProfile => "A line of the text is outside the profile.",
            Refusal::UnknownClass => "The ticket names a class that the graph does not have.",
            Refusal::NotForOperators => "The ticket names a kind that is not for operators.",
            Refusal::OutOfDate => "What was shown is not what the ticket would do now.",
        }
    }
}

/// The number and the sentence; for 3 also the rule, for 13 the length.
///
/// ```
/// use vimelosa_host::{Refusal, Rule};
/// assert_eq!(Refusal::BadLength.to_string(), "refusal 4: The ticket is not five bytes long.");
///
/// let no_resource = Refusal::Inconsistent { rule: Rule::H1 };
/// assert_eq!(no_resource.to_string(), "refusal 3: The graph breaks a rule. H1: Resource is a class.");
///
/// let short = Refusal::ShortOutput { needed: 84 };
/// assert_eq!(short.to_string(), "refusal 13: The output is too short. It needs 84 bytes.");
/// ```
impl fmt::Display for Refusal {
    fn fmt(&self, f: &mut fmt::Formatter<'_>) -> fmt::Result {
        write!(f, "refusal {}: {}", self.number(), self.sentence())?;
        match self {
            Refusal::Inconsistent { rule } => {
                let at_start_of_sentence = rule.to_string().replace("rule", "Rule");
                write!(f, " {at_start_of_sentence}: {}", rule.sentence())
            }
            Refusal::ShortOutput { needed } => write!(f, " It needs {needed} bytes."),
            _ => Ok(()),
        }
    }
}

impl Error for Refusal {}

#[cfg(test)]
mod tests;
