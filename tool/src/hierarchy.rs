//! Classes under classes and properties under properties. A graph has its links with all that follow from
//! them; here those with nothing between are told apart.

use std::collections::{BTreeMap, BTreeSet};
use vimelosa_host::{Fact, Graph, Kind};

/// The ids of one kind, ascending, and their links, lower id first.
pub struct Hierarchy {
    ids: Vec<u8>,
    links: BTreeSet<(u8, u8)>,
    above: BTreeMap<u8, Vec<u8>>,
    below: BTreeMap<u8, Vec<u8>>,
}

impl Hierarchy {
    pub fn of_classes(graph: &Graph) -> Hierarchy {
        Hierarchy::of(graph, Kind::Class, Kind::Subclass)
    }

    pub fn of_properties(graph: &Graph) -> Hierarchy {
        Hierarchy::of(graph, Kind::Property, Kind::Subproperty)
    }

    fn of(graph: &Graph, thing: Kind, link: Kind) -> Hierarchy {
        let ids = graph.body(thing).to_vec();
        let links = graph.facts(link).map(|fact| (fact.ids()[0], fact.ids()[1])).collect();
        let mut hierarchy = Hierarchy { ids, links, above: BTreeMap::new(), below: BTreeMap::new() };
        for &id in &hierarchy.ids {
            let direct = hierarchy.lowest(&hierarchy.all_above(id));
            for &high in &direct {
                hierarchy.below.entry(high).or_default().push(id);
            }
            hierarchy.above.insert(id, direct);
        }
        hierarchy
    }

    fn is_under(&self, low: u8, high: u8) -> bool {
        self.links.contains(&(low, high))
    }

    fn all_above(&self, id: u8) -> Vec<u8> {
        self.links.range((id, 0)..=(id, u8::MAX)).map(|&(_, high)| high).collect()
    }

    /// Of some ids, those that none of the others is under.
    pub fn lowest(&self, ids: &[u8]) -> Vec<u8> {
        let is_lowest = |id: u8| !ids.iter().any(|&other| self.is_under(other, id));
        ids.iter().copied().filter(|&id| is_lowest(id)).collect()
    }

    /// All ids, ascending.
    pub fn ids(&self) -> &[u8] {
        &self.ids
    }

    /// The ids that an id is under with none between.
    pub fn directly_above(&self, id: u8) -> &[u8] {
        self.above.get(&id).map_or(&[], Vec::as_slice)
    }

    /// The ids that are under an id with none between.
    pub fn directly_below(&self, id: u8) -> &[u8] {
        self.below.get(&id).map_or(&[], Vec::as_slice)
    }

    /// The ids that are under none.
    pub fn tops(&self) -> Vec<u8> {
        self.ids.iter().copied().filter(|&id| self.directly_above(id).is_empty()).collect()
    }

    /// The longest chain, from its top down, each id directly under the one before; of several, the one with
    /// the lowest ids, compared from the bottom up.
    pub fn longest_chain(&self) -> Vec<u8> {
        // What is under an id has all above that id above it, and the id too: so it comes later.
        let mut order = self.ids.clone();
        order.sort_by_key(|&id| self.all_above(id).len());
        let mut chains: BTreeMap<u8, Vec<u8>> = BTreeMap::new();
        for id in order {
            // Of equal ones `max_by_key` takes the last.
            let above = self.directly_above(id).iter().rev().map(|high| &chains[high]);
            let mut chain = above.max_by_key(|chain| chain.len()).cloned().unwrap_or_default();
            chain.push(id);
            chains.insert(id, chain);
        }
        chains.into_values().rev().max_by_key(Vec::len).unwrap_or_default()
    }
}

/// The members of a class that are in no class under it.
pub fn lowest_members(graph: &Graph, classes: &Hierarchy, class: u8) -> Vec<u8> {
    let is_lower = |individual: u8| {
        let mut below = classes.directly_below(class).iter();
        below.any(|&low| graph.has(Fact::Member { individual, class: low }))
    };
    graph.members_of(class).filter(|&individual| !is_lower(individual)).collect()
}
