//! A set of ids: 256 bits.

#[derive(Clone, Copy, PartialEq, Eq)]
pub struct Set([u64; 4]);

impl Set {
    pub const EMPTY: Set = Set([0; 4]);

    pub fn of(x: u8) -> Set {
        let mut set = Set::EMPTY;
        set.put(x);
        set
    }

    #[inline(always)]
    pub fn has(&self, x: u8) -> bool {
        self.0[usize::from(x >> 6)] >> (x & 63) & 1 != 0
    }

    #[inline(always)]
    pub fn put(&mut self, x: u8) {
        self.0[usize::from(x >> 6)] |= 1 << (x & 63);
    }

    #[inline(always)]
    pub fn take(&mut self, x: u8) {
        self.0[usize::from(x >> 6)] &= !(1 << (x & 63));
    }

    pub fn with(mut self, x: u8) -> Set {
        self.put(x);
        self
    }

    pub fn or(self, other: Set) -> Set {
        Set([self.0[0] | other.0[0], self.0[1] | other.0[1], self.0[2] | other.0[2], self.0[3] | other.0[3]])
    }

    pub fn and(self, other: Set) -> Set {
        Set([self.0[0] & other.0[0], self.0[1] & other.0[1], self.0[2] & other.0[2], self.0[3] & other.0[3]])
    }

    pub fn minus(self, other: Set) -> Set {
        Set([
            self.0[0] & !other.0[0],
            self.0[1] & !other.0[1],
            self.0[2] & !other.0[2],
            self.0[3] & !other.0[3],
        ])
    }

    pub fn len(&self) -> usize {
        self.0.iter().map(|bits| bits.count_ones() as usize).sum()
    }

    pub fn is_empty(&self) -> bool {
        self.0[0] | self.0[1] | self.0[2] | self.0[3] == 0
    }

    pub fn is_part_of(&self, other: &Set) -> bool {
        self.minus(*other).is_empty()
    }

    /// The ids, ascending.
    pub fn ids(self) -> Ids {
        Ids { set: self.0, at: 0 }
    }
}

pub struct Ids {
    set: [u64; 4],
    at: usize,
}

impl Iterator for Ids {
    type Item = u8;

    #[inline(always)]
    fn next(&mut self) -> Option<u8> {
        while self.set[self.at] == 0 {
            if self.at == 3 {
                return None;
            }
            self.at += 1;
        }
        let bits = self.set[self.at];
        self.set[self.at] = bits & (bits - 1);
        Some((self.at as u32 * 64 + bits.trailing_zeros()) as u8)
    }
}
