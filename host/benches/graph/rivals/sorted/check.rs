//! The check: for every rule the runs that it speaks of are walked, and each fact that it needs is searched.

use super::{a_of, b_of, c_of, end_of, has, of_first, of_kind};
use crate::rivals::fact::*;

/// The check of a table: refusals 1, 2, 3, or 0.
pub fn check(table: &[u32]) -> u8 {
    if table.is_empty() || table.len() > MOST_WORDS {
        return 1;
    }
    let count = table.iter().position(|word| *word == 0).unwrap_or(table.len());
    let (words, zeros) = table.split_at(count);
    let ascending = words.windows(2).all(|pair| pair[0] < pair[1]);
    if !ascending || !words.iter().all(|fact| is_fact(*fact)) || zeros.iter().any(|word| *word != 0) {
        return 2;
    }
    if is_consistent(words) {
        0
    } else {
        3
    }
}

/// The runs of the kinds, which every rule needs.
struct Runs<'a> {
    classes: &'a [u32],
    properties: &'a [u32],
    individuals: &'a [u32],
    literals: &'a [u32],
    subclasses: &'a [u32],
    subproperties: &'a [u32],
    domains: &'a [u32],
    ranges: &'a [u32],
    members: &'a [u32],
    values: &'a [u32],
    exclusive: &'a [u32],
}

/// Whether ascending facts meet every rule.
pub fn is_consistent(words: &[u32]) -> bool {
    let runs = Runs {
        classes: of_kind(words, CLASS),
        properties: of_kind(words, PROPERTY),
        individuals: of_kind(words, INDIVIDUAL),
        literals: of_kind(words, LITERAL),
        subclasses: of_kind(words, SUBCLASS),
        subproperties: of_kind(words, SUBPROPERTY),
        domains: of_kind(words, DOMAIN),
        ranges: of_kind(words, RANGE),
        members: of_kind(words, MEMBER),
        values: of_kind(words, VALUE),
        exclusive: of_kind(words, EXCLUSIVE),
    };
    runs.sorts_are_apart()
        && runs.links_have_their_ends()
        && runs.things_are_under_resource()
        && runs.properties_have_one_of_each()
        && is_order(runs.subclasses, SUBCLASS)
        && is_order(runs.subproperties, SUBPROPERTY)
        && runs.subproperties.iter().all(|link| runs.has_narrower_ends(*link))
        && runs.values.iter().all(|held| runs.has_members_at_its_ends(*held))
        && runs.members_go_up()
        && runs.values_go_up()
        && runs.exclusive_have_one_holder()
}

/// Rules 18 and 19, or 20 and 21: what is over y is over x too, and nothing is over itself.
fn is_order(links: &[u32], kind: u8) -> bool {
    runs_of(links, 16).all(|above| {
        let x = a_of(above[0]);
        let carried =
            |y: u8| of_first(links, kind, y).iter().all(|link| has(above, word(kind, x, b_of(*link), 0)));
        above.iter().all(|link| b_of(*link) != x && carried(b_of(*link)))
    })
}

impl Runs<'_> {
    fn is_class(&self, x: u8) -> bool {
        has(self.classes, word(CLASS, x, 0, 0))
    }

    fn is_property(&self, x: u8) -> bool {
        has(self.properties, word(PROPERTY, x, 0, 0))
    }

    fn is_individual(&self, x: u8) -> bool {
        has(self.individuals, word(INDIVIDUAL, x, 0, 0))
    }

    fn is_literal(&self, x: u8) -> bool {
        has(self.literals, word(LITERAL, x, 0, 0))
    }

    /// The domain of a property that has one.
    fn domain_of(&self, p: u8) -> u8 {
        end_of(self.domains, DOMAIN, p)
    }

    /// The range of a property that has one.
    fn range_of(&self, p: u8) -> u8 {
        end_of(self.ranges, RANGE, p)
    }

    /// Rules 4, 5, 6, H1 and H2.
    fn sorts_are_apart(&self) -> bool {
        let no_schema = |x: u8| !self.is_class(x) && !self.is_property(x);
        self.is_class(RESOURCE)
            && self.properties.iter().all(|known| !self.is_class(a_of(*known)))
            && self.individuals.iter().all(|known| no_schema(a_of(*known)))
            && self.literals.iter().all(|known| no_schema(a_of(*known)) && !self.is_individual(a_of(*known)))
    }

    /// Rules 7 to 12.
    fn links_have_their_ends(&self) -> bool {
        let class_or_mark = |y: u8| y == MARK || self.is_class(y);
        self.subclasses.iter().all(|link| self.is_class(a_of(*link)) && self.is_class(b_of(*link)))
            && self
                .subproperties
                .iter()
                .all(|link| self.is_property(a_of(*link)) && self.is_property(b_of(*link)))
            && self.domains.iter().all(|end| self.is_property(a_of(*end)) && self.is_class(b_of(*end)))
            && self.ranges.iter().all(|end| self.is_property(a_of(*end)) && class_or_mark(b_of(*end)))
            && self.members.iter().all(|held| self.is_individual(a_of(*held)) && self.is_class(b_of(*held)))
            && self.values.iter().all(|held| self.value_has_its_ends(*held))
    }

    /// Rule 12.
    fn value_has_its_ends(&self, held: u32) -> bool {
        let [_, x, y, p] = held.to_be_bytes();
        self.is_individual(x) && self.is_property(p) && (self.is_individual(y) || self.is_literal(y))
    }

    /// Rules 13 and 14.
    fn things_are_under_resource(&self) -> bool {
        let under = |x: u8| x == RESOURCE || has(self.subclasses, word(SUBCLASS, x, RESOURCE, 0));
        self.classes.iter().all(|known| under(a_of(*known)))
            && self.individuals.iter().all(|known| has(self.members, word(MEMBER, a_of(*known), RESOURCE, 0)))
    }

    /// Rules 15, 16 and 17.
    fn properties_have_one_of_each(&self) -> bool {
        let has_one = |p: u8| {
            of_first(self.domains, DOMAIN, p).len() == 1 && of_first(self.ranges, RANGE, p).len() == 1
        };
        self.properties.iter().all(|known| has_one(a_of(*known)))
    }

    /// Rules 22, 23 and H4.
    fn has_narrower_ends(&self, link: u32) -> bool {
        let (p, q) = (a_of(link), b_of(link));
        let under = |low: u8, high: u8| low == high || has(self.subclasses, word(SUBCLASS, low, high, 0));
        // A class is never the mark, so a link from or to it is not found (H4).
        under(self.domain_of(p), self.domain_of(q)) && under(self.range_of(p), self.range_of(q))
    }

    /// Rules 24, 25 and H3.
    fn has_members_at_its_ends(&self, held: u32) -> bool {
        let [_, x, y, p] = held.to_be_bytes();
        let is_member = |x: u8, class: u8| has(self.members, word(MEMBER, x, class, 0));
        let range = self.range_of(p);
        let value_fits = if range == MARK { self.is_literal(y) } else { is_member(y, range) };
        value_fits && is_member(x, self.domain_of(p))
    }

    /// Rule 26.
    fn members_go_up(&self) -> bool {
        runs_of(self.members, 16).all(|held| {
            let x = a_of(held[0]);
            let carried = |link: &u32| has(held, word(MEMBER, x, b_of(*link), 0));
            held.iter().all(|fact| of_first(self.subclasses, SUBCLASS, b_of(*fact)).iter().all(carried))
        })
    }

    /// Rule 27.
    fn values_go_up(&self) -> bool {
        runs_of(self.values, 8).all(|held| {
            let [_, x, y, _] = held[0].to_be_bytes();
            let carried = |link: &u32| has(held, word(VALUE, x, y, b_of(*link)));
            held.iter().all(|fact| of_first(self.subproperties, SUBPROPERTY, c_of(*fact)).iter().all(carried))
        })
    }

    /// Rules E1 and E2: the values of exclusive properties, without who has them, stand once each.
    fn exclusive_have_one_holder(&self) -> bool {
        if self.exclusive.is_empty() {
            return true;
        }
        let is_exclusive = |held: &&u32| has(self.exclusive, word(EXCLUSIVE, c_of(**held), 0, 0));
        let mut held: Vec<u32> = self.values.iter().filter(is_exclusive).map(|held| held & 0xffff).collect();
        held.sort_unstable();
        self.exclusive.iter().all(|known| self.is_property(a_of(*known)))
            && held.windows(2).all(|pair| pair[0] != pair[1])
    }
}
