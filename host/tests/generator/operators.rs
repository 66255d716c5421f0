//! Tickets as operators send them.

use super::tickets::{bad_ticket, short_ticket, ticket, Ids};
use super::Random;

/// The kinds that are for operators.
pub const OPERATORS_KINDS: [u8; 4] = [3, 4, 9, 10];

/// A ticket of five bytes, well formed but for strays. One in six is of any kind, the others are of one for
/// operators.
pub fn operator_ticket(random: &mut Random, ids: &Ids) -> [u8; 5] {
    let is_any = random.is_one_in(6);
    loop {
        let drawn = ticket(random, ids);
        if is_any || OPERATORS_KINDS.contains(&drawn[1]) {
            return drawn;
        }
    }
}

/// A ticket of any sort: most are good, some are bad, some have another length.
pub fn any_operator_ticket(random: &mut Random, ids: &Ids) -> Vec<u8> {
    match random.below(12) {
        0 => bad_ticket(random, ids).to_vec(),
        1 => short_ticket(random),
        _ => operator_ticket(random, ids).to_vec(),
    }
}

/// A list of so many tickets, one in twenty bad, with up to four bytes left over.
pub fn operator_list(random: &mut Random, ids: &Ids, count: usize) -> Vec<u8> {
    let mut bytes = Vec::new();
    for _ in 0..count {
        let is_bad = random.is_one_in(20);
        bytes.extend(if is_bad { bad_ticket(random, ids) } else { operator_ticket(random, ids) });
    }
    let leftover = random.below(5);
    bytes.extend((0..leftover).map(|_| random.byte()));
    bytes
}
