//! The graphs on which the host call is measured, each with its tickets.

use crate::paper;
use crate::plant::{Bytes, Plant, FIRST_INDIVIDUAL, NEW_INDIVIDUAL, NO_CLASS, SECOND_CLASS};
use crate::rivals::fact::*;
use crate::rivals::sorted::Sorted;
use crate::rivals::Rival;

/// The sizes of the plant graphs, in facts.
pub const SIZES: [usize; 5] = [128, 256, 512, 1024, 2048];

/// A new individual in a class under a root: itself, and its membership in three classes.
const ROOM: usize = 4;

/// The mean is of a graph's first so many calls.
pub const IN_MEAN: usize = 5;

/// A graph and the tickets that are run on it.
pub struct Subject {
    pub name: &'static str,
    pub facts: usize,
    /// The image on which the insertion is run, and the one for the other tickets.
    open: Vec<u8>,
    image: Vec<u8>,
    tickets: Tickets,
}

struct Tickets {
    insertion: Bytes,
    repeat: Bytes,
    clash: Bytes,
    deletion: Bytes,
    unknown_class: Bytes,
}

/// One measured call: a name, an image and a ticket.
pub struct Call<'a> {
    pub name: &'static str,
    pub image: &'a [u8],
    pub ticket: Vec<u8>,
    /// The answer that it has to give.
    pub number: u16,
}

impl Subject {
    /// The paper's graph; the new individual comes into its lowest class.
    pub fn paper() -> Subject {
        let mut table = Sorted::fresh();
        for ticket in paper::tickets() {
            assert_eq!(table.apply(&ticket).number, 0);
        }
        let tickets = Tickets {
            insertion: [1, MEMBER, 65, 2, 0],
            repeat: [1, MEMBER, 40, 2, 0],
            clash: [1, SUBCLASS, 6, 2, 0],
            deletion: [2, INDIVIDUAL, 40, 0, 0],
            unknown_class: [1, MEMBER, 40, 7, 0],
        };
        Subject::of("paper (5,5)", table.image(), &table, tickets)
    }

    /// A plant graph of so many facts, if the drawn ones come so far. The insertion is run on it as it was
    /// before, with the room that is needed.
    pub fn plant(facts: usize) -> Subject {
        let plant = Plant::draw(1, facts - ROOM);
        let open = plant.table().image();
        let insertion = [1, MEMBER, NEW_INDIVIDUAL, SECOND_CLASS, 0];
        let mut table = plant.table().clone();
        assert_eq!(table.apply(&insertion).added, ROOM);
        let tickets = Tickets {
            insertion,
            repeat: insertion,
            clash: [1, SUBCLASS, plant.over(SECOND_CLASS), SECOND_CLASS, 0],
            deletion: [2, INDIVIDUAL, FIRST_INDIVIDUAL, 0, 0],
            unknown_class: [1, MEMBER, NEW_INDIVIDUAL, NO_CLASS, 0],
        };
        Subject::of("plant", open, &table, tickets)
    }

    fn of(name: &'static str, open: Vec<u8>, table: &Sorted, tickets: Tickets) -> Subject {
        Subject { name, facts: table.count_facts(), open, image: table.image(), tickets }
    }

    pub fn image(&self) -> &[u8] {
        &self.image
    }

    /// The five calls whose mean is reported, one that names a class wrong, and one that reads and checks the
    /// image before the ticket is refused for its length.
    pub fn calls(&self) -> Vec<Call<'_>> {
        let [operation, kind, a, b, _] = self.tickets.repeat;
        let bad_form = [operation, kind, a, b, 7];
        vec![
            call("insertion", &self.open, &self.tickets.insertion, 0),
            call("repeat", &self.image, &self.tickets.repeat, 0),
            call("bad form", &self.image, &bad_form, 7),
            call("clash", &self.image, &self.tickets.clash, 10),
            call("deletion", &self.image, &self.tickets.deletion, 0),
            call("unknown class", &self.image, &self.tickets.unknown_class, 16),
            call("read and check", &self.image, &[], 4),
        ]
    }
}

fn call<'a>(name: &'static str, image: &'a [u8], ticket: &[u8], number: u16) -> Call<'a> {
    Call { name, image, ticket: ticket.to_vec(), number }
}
