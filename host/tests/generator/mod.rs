//! A small seeded generator of tickets, graphs, texts, runs of words, and damaged images, texts and runs. The
//! same seed gives the same tests.

// Each test uses its own share of this module.
#![allow(dead_code)]

pub mod calls;
pub mod damage;
pub mod graphs;
pub mod inside;
pub mod lines;
pub mod long_lists;
pub mod operators;
pub mod outside;
pub mod previews;
pub mod scripts;
pub mod tickets;
pub mod triples;

use std::env;

/// Numbers by the splitmix64 sequence.
pub struct Random {
    state: u64,
}

impl Random {
    /// A sequence of its own for each name of a test, from VIMELOSA_TEST_SEED where it is set.
    pub fn for_test(name: &str) -> Random {
        let seed = number_from("VIMELOSA_TEST_SEED").unwrap_or(1);
        let mix = |state: u64, byte: u8| state.wrapping_mul(0x100_0000_01b3) ^ u64::from(byte);
        Random { state: name.bytes().fold(seed as u64, mix) }
    }

    fn next(&mut self) -> u64 {
        self.state = self.state.wrapping_add(0x9e37_79b9_7f4a_7c15);
        let once = (self.state ^ (self.state >> 30)).wrapping_mul(0xbf58_476d_1ce4_e5b9);
        let twice = (once ^ (once >> 27)).wrapping_mul(0x94d0_49bb_1331_11eb);
        twice ^ (twice >> 31)
    }

    /// A number below `end`, which is above 0.
    pub fn below(&mut self, end: usize) -> usize {
        (self.next() % end as u64) as usize
    }

    pub fn byte(&mut self) -> u8 {
        self.next() as u8
    }

    pub fn is_one_in(&mut self, count: usize) -> bool {
        self.below(count) == 0
    }

    pub fn pick<T: Copy>(&mut self, from: &[T]) -> T {
        from[self.below(from.len())]
    }

    pub fn shuffle<T>(&mut self, items: &mut [T]) {
        for end in (1..items.len()).rev() {
            items.swap(end, self.below(end + 1));
        }
    }
}

/// How often a test runs: so many times, or that many times VIMELOSA_TEST_ROUNDS.
pub fn rounds(count: usize) -> usize {
    count * number_from("VIMELOSA_TEST_ROUNDS").unwrap_or(1)
}

fn number_from(variable: &str) -> Option<usize> {
    let text = env::var(variable).ok()?;
    Some(text.parse().expect("a number"))
}
