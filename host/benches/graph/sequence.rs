//! Seeded numbers that anyone can repeat: the next state is s × 1664525 + 1013904223 modulo 4294967296.

pub struct Sequence {
    state: u32,
}

impl Sequence {
    pub fn of_seed(seed: u32) -> Sequence {
        Sequence { state: seed }
    }

    /// A number below `end`, from the upper half of the next state; `end` is above 0 and at most 65536.
    pub fn below(&mut self, end: usize) -> usize {
        self.state = self.state.wrapping_mul(1664525).wrapping_add(1013904223);
        (self.state >> 16) as usize % end
    }

    pub fn is_one_in(&mut self, count: usize) -> bool {
        self.below(count) == 0
    }

    pub fn pick<T: Copy>(&mut self, from: &[T]) -> T {
        from[self.below(from.len())]
    }

    pub fn shuffle<T>(&mut self, items: &mut [T]) {
        for end in (1..items.len()).rev() {
            items.swap(end, self.below(end + 1));
        }
    }
}
