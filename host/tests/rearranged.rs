//! Rearranged insertions on the independent implementation: they are accepted whole exactly if each comes
//! after those that it waits for, and then the words at the end are the same.

mod generator;
mod independent;

use generator::graphs::{classes_of, grown};
use generator::tickets::{ticket_with, Ids, ALL_IDS};
use generator::{rounds, Random};
use independent::fact::*;
use independent::graph::Graph;
use independent::order::{first_out_of_order, may_follow};
use independent::table::{facts_of, fresh_graph, store};
use independent::ticket::{apply, asked_by, changed};

/// Insertions that are all accepted one after the other, and the graphs before and after them.
struct Accepted {
    start: Graph,
    tickets: Vec<[u8; 5]>,
    end: Graph,
}

/// Those accepted of so many insertions.
fn accepted(random: &mut Random, ids: &Ids, start: Graph, drawn: usize) -> Accepted {
    let ids = Ids { deletions: usize::MAX, ..*ids };
    let (mut tickets, mut end) = (Vec::new(), start.clone());
    for _ in 0..drawn {
        let ticket = ticket_with(random, &ids, &classes_of(&end));
        if let Ok(new) = asked_by(&ticket).and_then(|asked| changed(&end, &asked)) {
            tickets.push(ticket);
            end = new;
        }
    }
    Accepted { start, tickets, end }
}

impl Accepted {
    /// A table of the start without a word to spare at the end: no order needs more room on the way.
    fn table(&self) -> Vec<u32> {
        let mut table = vec![0; self.end.len()];
        store(&self.start, &mut table);
        table
    }

    /// The tickets in another order, in which each comes after those that it waits for.
    fn in_order(&self, random: &mut Random) -> Vec<[u8; 5]> {
        let (mut left, mut placed) = (self.tickets.clone(), Vec::new());
        random.shuffle(&mut left);
        while !left.is_empty() {
            let next = left.iter().position(|ticket| may_follow(&self.start, &placed, *ticket));
            placed.push(left.remove(next.expect("each class and property is made")));
        }
        placed
    }
}

/// A graph of any number of tickets up to 12; one in four is fresh.
fn some_start(random: &mut Random, ids: &Ids) -> Graph {
    let tickets = random.below(13);
    if random.is_one_in(4) {
        fresh_graph()
    } else {
        grown(random, ids, tickets, 60)
    }
}

#[test]
fn rearranged_insertions_end_in_the_same_words() {
    let mut random = Random::for_test("rearranged_insertions_end_in_the_same_words");
    for round in 0..rounds(80) {
        let start = some_start(&mut random, &ALL_IDS[round % 4]);
        let list = accepted(&mut random, &ALL_IDS[round % 4], start, 40);
        let mut table = list.table();
        for ticket in list.in_order(&mut random) {
            assert_eq!(apply(&mut table, &ticket).number, 0);
        }
        assert_eq!(facts_of(&table), Ok(list.end));
    }
}

/// The place and number of the first ticket that is refused, if one is, and the graph that all leave.
fn run(mut table: Vec<u32>, tickets: &[[u8; 5]]) -> (Option<(usize, u8)>, Graph) {
    let numbers: Vec<u8> = tickets.iter().map(|ticket| apply(&mut table, ticket).number).collect();
    let refused = numbers.iter().position(|number| *number != 0);
    (refused.map(|place| (place, numbers[place])), facts_of(&table).unwrap())
}

/// Short lists in any order at all. The first ticket that comes too early is the first that is refused: a
/// member with 16, the others, Excl among them, with 9.
#[test]
fn arrangements_are_accepted_whole_exactly_if_in_order() {
    let mut random = Random::for_test("arrangements_are_accepted_whole");
    let (mut met, mut exclusive) = ([0; 17], 0);
    for round in 0..rounds(2_000) {
        let start = some_start(&mut random, &ALL_IDS[round % 4]);
        let list = accepted(&mut random, &ALL_IDS[round % 4], start, 3 + round % 24);
        for _ in 0..3 {
            let mut tickets = list.tickets.clone();
            random.shuffle(&mut tickets);
            let early = first_out_of_order(&list.start, &tickets);
            let number = |place: usize| if tickets[place][1] == MEMBER { 16 } else { 9 };
            let expected = early.map(|place| (place, number(place)));
            let (refused, end) = run(list.table(), &tickets);
            assert_eq!(refused, expected, "{tickets:02x?} on {:?}", list.start);
            assert!(refused.is_some() || end == list.end, "{tickets:02x?} on {:?}", list.start);
            met[refused.map_or(0, |(_, number)| usize::from(number))] += 1;
            exclusive += usize::from(early.map_or(false, |place| tickets[place][1] == EXCLUSIVE));
        }
    }
    assert!([0, 9, 16].iter().all(|number| met[*number] > 300) && exclusive > 100, "{met:?} {exclusive}");
}
