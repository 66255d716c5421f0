//! Graphs of many properties and values for the check, with all, some or none of the properties exclusive.
//! The time that rule E2 takes is to grow with the sum of the exclusive properties and the values, not with
//! their product.

use crate::checks::Checked;
use crate::rivals::fact::*;
use crate::rivals::sorted::Sorted;
use crate::rivals::Rival;

const PROPERTIES: u8 = 200;
const FIRST_PROPERTY: u8 = 2;
const FIRST_INDIVIDUAL: u8 = FIRST_PROPERTY + PROPERTIES;

/// The ids that are left.
const INDIVIDUALS: u8 = u8::MAX - FIRST_INDIVIDUAL + 1;

/// Values of each property, and how many properties are exclusive.
const SIZES: [(u8, u8); 5] = [(5, 0), (5, 50), (5, 100), (5, PROPERTIES), (2, PROPERTIES)];

pub fn graphs() -> Vec<Checked> {
    SIZES.into_iter().map(|(values, exclusive)| graph(values, exclusive)).collect()
}

/// Each property has so many values, no two the same, so that it can be exclusive.
fn graph(values: u8, exclusive: u8) -> Checked {
    let mut table = Sorted::fresh();
    let mut run = |ticket: [u8; 5]| assert_eq!(table.apply(&ticket).number, 0, "{ticket:?}");
    for place in 0..PROPERTIES {
        let p = FIRST_PROPERTY + place;
        run([1, PROPERTY, p, RESOURCE, RESOURCE]);
        if place < exclusive {
            run([1, EXCLUSIVE, p, 0, 0]);
        }
        for value in 0..values {
            run([
                1,
                VALUE,
                individual(3 * usize::from(p) + usize::from(value)),
                individual(usize::from(p + value)),
                p,
            ]);
        }
    }
    let values = usize::from(PROPERTIES) * usize::from(values);
    let name = format!("{values} values of {PROPERTIES} properties, {exclusive} exclusive");
    Checked { name, facts: table.count_facts(), image: table.image() }
}

/// One individual after the other, and again from the first.
fn individual(place: usize) -> u8 {
    FIRST_INDIVIDUAL + (place % usize::from(INDIVIDUALS)) as u8
}
