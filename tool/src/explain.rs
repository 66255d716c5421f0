//! What is said of a refused ticket after the refusal's own sentence: what it is about, and what to do.

use crate::holders::say_two_holders;
use crate::sender::Sender;
use crate::text::named;
use crate::tickets::{Source, Understood};
use crate::unknown::{Said, Unknown};
use vimelosa_host::{Asked, Fact, Graph, Kind, Refusal, Ticket};

/// What is said where a ticket would no longer do what was shown.
const SEE_AGAIN: &str = "Run the command again to see what it would do now.";

/// A list of tickets, whose they are, and the graph that it is run on.
pub struct Explainer<'a> {
    sender: Sender,
    source: &'a Source,
    understood: &'a Understood,
    /// The place of the first ticket that is run on the graph.
    start: usize,
    before: Graph,
    run: Option<Run<'a>>,
    classes: Option<Unknown<'a>>,
    properties: Option<Unknown<'a>>,
}

impl<'a> Explainer<'a> {
    pub fn new(
        sender: Sender,
        source: &'a Source,
        understood: &'a Understood,
        before: Graph,
    ) -> Explainer<'a> {
        let (run, classes, properties) = (None, None, None);
        Explainer { sender, source, understood, start: 0, before, run, classes, properties }
    }

    /// Leaves out the ticket at a place: those after it are run on the graph that it found.
    pub fn leave_out(&mut self, place: usize, found: &Graph) {
        (self.start, self.before) = (place + 1, found.clone());
        (self.run, self.classes, self.properties) = (None, None, None);
    }

    /// A sentence on the refused ticket at a place; nothing where the refusal's own says all. Places are
    /// asked for in ascending order.
    pub fn explain(&mut self, place: usize, refusal: Refusal) -> Option<String> {
        match refusal {
            Refusal::NotForOperators => return Some(say_kinds()),
            Refusal::OutOfDate => return Some(SEE_AGAIN.to_owned()),
            _ => {}
        }
        let asked = match self.understood.tickets[place].asks() {
            Ok(Asked::Insert(fact)) => fact,
            _ => return None,
        };
        match (refusal, asked) {
            (Refusal::UnknownClass, Fact::Member { class, .. }) => {
                Some(self.say_unknown(Kind::Class, place, class))
            }
            (Refusal::UnknownProperty, _) => {
                let property = self.unknown_property(place, asked)?;
                Some(self.say_unknown(Kind::Property, place, property))
            }
            (Refusal::Clashing, _) => self.say_clash(place, asked),
            _ => None,
        }
    }

    /// What the ticket at a place finds. The list is run when it is first needed.
    fn found_at(&mut self, place: usize) -> &Graph {
        let Explainer { sender, understood, start, before, run, .. } = self;
        run.get_or_insert_with(|| Run::of(*sender, &understood.tickets, *start, before)).found_at(place)
    }

    /// The first property that the ticket at a place uses and does not find.
    fn unknown_property(&mut self, place: usize, asked: Fact) -> Option<u8> {
        match asked {
            Fact::Value { property, .. } | Fact::Exclusive(property) => Some(property),
            Fact::Subproperty { property, superproperty } => {
                let found = self.found_at(place);
                [property, superproperty].into_iter().find(|id| !found.has(Fact::Property(*id)))
            }
            _ => None,
        }
    }

    /// On a class or a property that is not there.
    fn say_unknown(&mut self, kind: Kind, place: usize, id: u8) -> String {
        let Explainer { sender, source, understood, start, before, run, classes, properties } = self;
        let run = run.get_or_insert_with(|| Run::of(*sender, &understood.tickets, *start, before));
        let unknown = if kind == Kind::Class { classes } else { properties };
        let names = &understood.names;
        let unknown = unknown.get_or_insert_with(|| Unknown::of(kind, run, names));
        let maker = unknown.next_maker(place, id).and_then(|maker| source.given[maker].line);
        match (unknown.say(run, place, id), maker) {
            (Said { is_free: true, .. }, Some(line)) => {
                format!("Line {line} makes {}: put it before this one.", named(names, id))
            }
            (Said { sentence, .. }, _) => sentence.clone(),
        }
    }

    /// On a value that two individuals would have for an exclusive property.
    fn say_clash(&mut self, place: usize, asked: Fact) -> Option<String> {
        let names = &self.understood.names;
        match asked.kind() {
            Kind::Value | Kind::Subproperty | Kind::Exclusive => {
                say_two_holders(self.found_at(place), names, asked)
            }
            _ => None,
        }
    }
}

/// Which kinds operators' tickets have.
fn say_kinds() -> String {
    let kinds = Kind::ALL.into_iter().filter(|kind| kind.is_for_operators());
    let kinds: Vec<String> = kinds.map(|kind| kind.to_string()).collect();
    format!("Operators' tickets have these kinds: {}.", kinds.join(", "))
}

/// A list while every ticket is tried, also where the first refused drops them all: then what a later ticket
/// makes can be told too.
pub struct Run<'a> {
    pub sender: Sender,
    pub tickets: &'a [Ticket],
    /// Whether each ticket is accepted; of those before the start nothing is said.
    pub accepted: Vec<bool>,
    /// What the whole list leaves.
    left: Graph,
    /// What the ticket at a place finds.
    found: Graph,
    place: usize,
}

impl<'a> Run<'a> {
    fn of(sender: Sender, tickets: &'a [Ticket], start: usize, before: &Graph) -> Run<'a> {
        let (found, mut left) = (before.clone(), before.clone());
        let mut accepted = vec![false; start];
        accepted.extend(sender.apply_all(&mut left, &tickets[start..]).iter().map(Result::is_ok));
        Run { sender, tickets, accepted, left, found, place: start }
    }

    /// What the ticket at a place finds; no place before the last one is asked for.
    pub fn found_at(&mut self, place: usize) -> &Graph {
        if place > self.place {
            let _ = self.sender.apply_all(&mut self.found, &self.tickets[self.place..place]);
            self.place = place;
        }
        &self.found
    }

    /// That, and what the whole list leaves.
    pub fn graphs_at(&mut self, place: usize) -> [&Graph; 2] {
        self.found_at(place);
        [&self.found, &self.left]
    }
}
