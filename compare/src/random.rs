//! A small generator of pseudo-random numbers: the same seed gives the same numbers on each machine.

/// A 64-bit xorshift generator.
pub struct Random {
    state: u64,
}

impl Random {
    /// The seed must not be 0, where the generator would stay.
    pub fn new(seed: u64) -> Random {
        assert_ne!(seed, 0);
        Random { state: seed }
    }

    fn next(&mut self) -> u64 {
        self.state ^= self.state << 13;
        self.state ^= self.state >> 7;
        self.state ^= self.state << 17;
        self.state
    }

    /// A number less than `end`, which must not be 0. Slightly uneven, which matters little here.
    pub fn below(&mut self, end: usize) -> usize {
        // the upper bits are the better ones
        (self.next() >> 32) as usize % end
    }

    /// A byte from `first` to `last`, both included.
    pub fn byte_within(&mut self, first: u8, last: u8) -> u8 {
        first + self.below(usize::from(last - first) + 1) as u8
    }

    /// One of the items, of which there must be some.
    pub fn pick<'a, T>(&mut self, items: &'a [T]) -> &'a T {
        &items[self.below(items.len())]
    }
}
