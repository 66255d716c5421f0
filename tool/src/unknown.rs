//! What is said of a class or a property that a ticket names and the graph lacks.

use crate::explain::Run;
use crate::nearest::nearest;
use crate::sender::Sender;
use crate::text::named;
use std::collections::BTreeMap;
use vimelosa_host::{Asked, Fact, Graph, Kind, Names, Range, Ticket};

/// The classes of a list, or its properties.
pub struct Unknown<'a> {
    /// Class or property.
    kind: Kind,
    sender: Sender,
    names: &'a Names,
    /// The places of the accepted tickets that an id can come from as one of the kind, ascending.
    makers: BTreeMap<u8, Vec<usize>>,
    /// What was said of an id, for the next ticket that names it.
    said: BTreeMap<u8, Said>,
}

/// What is said of an id that is not of the kind, and whether it is nothing else where it is first named.
pub struct Said {
    pub sentence: String,
    pub is_free: bool,
}

impl<'a> Unknown<'a> {
    pub fn of(kind: Kind, run: &Run, names: &'a Names) -> Unknown<'a> {
        let mut makers: BTreeMap<u8, Vec<usize>> = BTreeMap::new();
        for (place, ticket) in run.tickets.iter().enumerate().filter(|(place, _)| run.accepted[*place]) {
            for id in made_by(kind, *ticket) {
                makers.entry(id).or_default().push(place);
            }
        }
        Unknown { kind, sender: run.sender, names, makers, said: BTreeMap::new() }
    }

    /// The first ticket after a place that the id can come from.
    pub fn next_maker(&self, place: usize, id: u8) -> Option<usize> {
        let places = self.makers.get(&id)?;
        places.get(places.partition_point(|&maker| maker < place)).copied()
    }

    /// What an id is that is not of the kind where the ticket at a place names it, or else which was meant.
    pub fn say(&mut self, run: &mut Run, place: usize, id: u8) -> &Said {
        if !self.said.contains_key(&id) {
            let graphs = run.graphs_at(place);
            let is_free = self.other_thing(graphs[0], id).is_none();
            self.said.insert(id, Said { sentence: self.sentence(graphs, id), is_free });
        }
        &self.said[&id]
    }

    /// By what the ticket finds, and by what the list leaves.
    fn sentence(&self, graphs: [&Graph; 2], id: u8) -> String {
        let other = graphs.iter().find_map(|graph| self.other_thing(graph, id));
        let (kind, name) = (self.kind, named(self.names, id));
        match (other, self.nearest_name(graphs, id)) {
            (Some(thing), _) => format!("{name} is {thing}, not a {kind}."),
            (None, Some(near)) => format!("There is no {kind} {name}; the nearest is {near}."),
            (None, None) => format!("There is no {kind} {name}; {} makes it.", self.maker(&name)),
        }
    }

    /// The words of a ticket that makes it, which is not one for operators.
    fn maker(&self, name: &str) -> String {
        let ends = if self.kind == Kind::Property { " DOMAIN RANGE" } else { "" };
        let ticket = format!("`insert {} {name}{ends}`", self.kind);
        match self.sender {
            Sender::Anyone => ticket,
            Sender::Operator => format!("{ticket}, without --operator,"),
        }
    }

    /// The one of the kind with the name nearest to that of an id, if it has one; of several as near one that
    /// stands already, and of these the lowest id.
    fn nearest_name(&self, graphs: [&Graph; 2], id: u8) -> Option<&'a str> {
        let there = graphs.into_iter().flat_map(|graph| graph.body(self.kind));
        nearest(self.names.name_of(id)?, there.filter_map(|&other| self.names.name_of(other)))
    }

    /// What an id is beside one of the kind.
    fn other_thing(&self, graph: &Graph, id: u8) -> Option<&'static str> {
        let things = [
            (Fact::Class(id), "a class"),
            (Fact::Property(id), "a property"),
            (Fact::Individual(id), "an individual"),
            (Fact::Literal(id), "a literal"),
        ];
        let mut others = things.into_iter().filter(|(fact, _)| fact.kind() != self.kind);
        others.find(|(fact, _)| graph.has(*fact)).map(|(_, thing)| thing)
    }
}

/// The classes, or the property, that a ticket makes where they are not there.
fn made_by(kind: Kind, ticket: Ticket) -> Vec<u8> {
    match (kind, ticket.asks()) {
        (Kind::Property, Ok(Asked::InsertProperty { property, .. })) => vec![property],
        (Kind::Property, _) => Vec::new(),
        (_, Ok(Asked::Insert(Fact::Class(class)))) => vec![class],
        (_, Ok(Asked::Insert(Fact::Subclass { class, superclass }))) => vec![class, superclass],
        (_, Ok(Asked::InsertProperty { domain, range: Range::Class { class, .. }, .. })) => {
            vec![domain, class]
        }
        (_, Ok(Asked::InsertProperty { domain, .. })) => vec![domain],
        _ => Vec::new(),
    }
}
