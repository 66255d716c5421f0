//! What is said of a ticket by which two individuals would have one value for an exclusive property.

use crate::text::named;
use std::collections::BTreeMap;
use vimelosa_host::{Fact, Graph, Kind, Names};

/// Who has the value already, or who would have it both; nothing if the ticket clashes for another reason.
pub fn say_two_holders(graph: &Graph, names: &Names, asked: Fact) -> Option<String> {
    let name = |id: u8| named(names, id);
    match asked {
        Fact::Value { individual, value, property } => {
            let (over, holder) = other_holder(graph, individual, value, property)?;
            let is_exclusive = match over == property {
                true => format!("{} is exclusive", name(over)),
                false => format!("{} is under {}, which is exclusive", name(property), name(over)),
            };
            Some(format!("{is_exclusive}, and {} has {} for it already.", name(holder), name(value)))
        }
        Fact::Exclusive(property) => {
            let [one, other, value] = two_holders(values_of(graph, property))?;
            Some(format!("{} and {} both have {} for it.", name(one), name(other), name(value)))
        }
        Fact::Subproperty { property, superproperty } => {
            let meeting = |over: u8| {
                let held = values_of(graph, property).chain(values_of(graph, over));
                two_holders(held).map(|held| (over, held))
            };
            let (over, [one, other, value]) = exclusive_over(graph, superproperty).find_map(meeting)?;
            let (over, one, other, value) = (name(over), name(one), name(other), name(value));
            Some(format!("{over} is exclusive, and {one} and {other} would both have {value} for it."))
        }
        _ => None,
    }
}

/// An exclusive property at or above another, and who else has the value for it.
fn other_holder(graph: &Graph, individual: u8, value: u8, property: u8) -> Option<(u8, u8)> {
    let other = |over: u8| graph.holders_of(value, over).find(|holder| *holder != individual);
    exclusive_over(graph, property).find_map(|over| Some((over, other(over)?)))
}

/// The exclusive ones among a property and those above it; the property first.
fn exclusive_over(graph: &Graph, property: u8) -> impl Iterator<Item = u8> + '_ {
    let above = move |over: &u8| graph.has(Fact::Subproperty { property, superproperty: *over });
    let own = Some(property).filter(|property| graph.is_exclusive(*property));
    own.into_iter().chain(graph.exclusive_properties().filter(above))
}

/// Who has which value for a property.
fn values_of(graph: &Graph, property: u8) -> impl Iterator<Item = (u8, u8)> + '_ {
    let values = graph.facts(Kind::Value).map(Fact::ids).filter(move |ids| ids[2] == property);
    values.map(|[individual, value, _]| (individual, value))
}

/// Two individuals that have one value, and the value.
fn two_holders(held: impl Iterator<Item = (u8, u8)>) -> Option<[u8; 3]> {
    let mut holders = BTreeMap::new();
    for (individual, value) in held {
        let first = *holders.entry(value).or_insert(individual);
        if first != individual {
            return Some([first, individual, value]);
        }
    }
    None
}
