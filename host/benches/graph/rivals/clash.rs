//! Refusals 9, 16 and 10 by lookups. On a consistent table no chain of side effects has to be followed to
//! find a clash: what an asked fact brings with it can only clash in the ways below.

use super::fact::*;
use super::form::Ticket;

/// What the test asks of a consistent table.
pub trait Lookups {
    /// Whether an id is of a sort: class, property, individual or literal.
    fn is(&self, sort: u8, x: u8) -> bool;
    fn is_subclass(&self, x: u8, y: u8) -> bool;
    fn is_subproperty(&self, x: u8, y: u8) -> bool;
    /// The domain of a property of the table.
    fn domain_of(&self, p: u8) -> u8;
    /// The range of a property of the table, which may be the mark.
    fn range_of(&self, p: u8) -> u8;
    /// Whether two individuals have the same value for a property.
    fn has_two_holders(&self, p: u8) -> bool;
    /// Whether another individual than x has the value y for an exclusive property at or over p.
    fn is_taken(&self, x: u8, y: u8, p: u8) -> bool;
    /// Whether two individuals would have the same value for an exclusive property at or over q if p came
    /// under q.
    fn values_meet(&self, p: u8, q: u8) -> bool;
}

/// Refusal 9: the insertion uses a property that is not in the table.
pub fn uses_unknown_property(table: &impl Lookups, t: &Ticket) -> bool {
    match t.kind {
        SUBPROPERTY => !table.is(PROPERTY, t.a) || !table.is(PROPERTY, t.b),
        VALUE => !table.is(PROPERTY, t.c),
        EXCLUSIVE => !table.is(PROPERTY, t.a),
        _ => false,
    }
}

/// Refusal 16: the insertion makes a member of what is no class of the table.
pub fn uses_unknown_class(table: &impl Lookups, t: &Ticket) -> bool {
    t.kind == MEMBER && !table.is(CLASS, t.b)
}

/// Refusal 10, past 9 and 16: no consistent graph holds the table and what the insertion asks. The class of a
/// new member is there, so only the member can be of another sort.
pub fn clashes(table: &impl Lookups, t: &Ticket) -> bool {
    match t.kind {
        CLASS | INDIVIDUAL | LITERAL => is_other(table, t.kind, t.a),
        PROPERTY => property_clashes(table, t),
        SUBCLASS => subclass_clashes(table, t.a, t.b),
        SUBPROPERTY => subproperty_clashes(table, t.a, t.b) || table.values_meet(t.a, t.b),
        MEMBER => is_other(table, INDIVIDUAL, t.a),
        EXCLUSIVE => table.has_two_holders(t.a),
        _ => value_clashes(table, t) || table.is_taken(t.a, t.b, t.c),
    }
}

/// The id is of another sort already, so it cannot be of this one (rules 4, 5, 6, H2).
fn is_other(table: &impl Lookups, sort: u8, x: u8) -> bool {
    (CLASS..=LITERAL).any(|other| other != sort && table.is(other, x))
}

/// Rules 16 and 17 for a property that is there, and the sorts of the three ids.
fn property_clashes(table: &impl Lookups, t: &Ticket) -> bool {
    if table.is(PROPERTY, t.a) {
        return table.domain_of(t.a) != t.b || table.range_of(t.a) != t.c;
    }
    let no_class = |x: u8| x == t.a || is_other(table, CLASS, x);
    is_other(table, PROPERTY, t.a) || no_class(t.b) || (t.c != MARK && no_class(t.c))
}

/// Resource is under no class; otherwise a link clashes if it closes a circle (rule 19).
fn subclass_clashes(table: &impl Lookups, x: u8, y: u8) -> bool {
    let circle = x == y || x == RESOURCE || table.is_subclass(y, x);
    circle || is_other(table, CLASS, x) || is_other(table, CLASS, y)
}

/// A circle of properties (rule 21), ranges of which one is the mark (H4), or a circle among the class links
/// that the domains and ranges need (rules 22, 23), each alone or the two together.
fn subproperty_clashes(table: &impl Lookups, p: u8, q: u8) -> bool {
    if p == q || table.is_subproperty(q, p) {
        return true;
    }
    let (low, high) = (table.domain_of(p), table.domain_of(q));
    let (from, to) = (table.range_of(p), table.range_of(q));
    if (from == MARK) != (to == MARK) {
        return true;
    }
    let (new_domain, new_range) = (low != high, from != to);
    let under = |x: u8, y: u8| x == y || table.is_subclass(x, y);
    (new_domain && under(high, low))
        || (new_range && under(to, from))
        || (new_domain && new_range && under(high, from) && under(to, low))
}

/// The subject is an individual; the value is a literal or an individual as the range says (H3, rule 25).
fn value_clashes(table: &impl Lookups, t: &Ticket) -> bool {
    if is_other(table, INDIVIDUAL, t.a) {
        return true;
    }
    if table.range_of(t.c) == MARK {
        return t.a == t.b || is_other(table, LITERAL, t.b);
    }
    is_other(table, INDIVIDUAL, t.b)
}
