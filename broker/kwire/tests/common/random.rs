//! A generator of numbers that are the same in each run.

/// Marsaglia's xorshift, 64 bits.
pub struct Random(u64);

impl Random {
    pub fn new(seed: u64) -> Self {
        Random(seed.max(1))
    }

    pub fn next(&mut self) -> u64 {
        self.0 ^= self.0 << 13;
        self.0 ^= self.0 >> 7;
        self.0 ^= self.0 << 17;
        self.0
    }

    /// Below `bound`, which is 1 or more.
    pub fn below(&mut self, bound: usize) -> usize {
        usize::try_from(self.next() >> 32).unwrap() % bound
    }

    /// One that tends to be at an edge of its type.
    pub fn byte(&mut self) -> u8 {
        match self.below(3) {
            0 => [0, 1, 2, 0x7f, 0x80, 0xff][self.below(6)],
            _ => self.next() as u8,
        }
    }

    /// Changes some bytes, cuts the end off, or puts some in.
    pub fn mutate(&mut self, bytes: &mut Vec<u8>) {
        for _ in 0..=self.below(4) {
            let at = self.below(bytes.len() + 1);
            match self.below(8) {
                0 => bytes.truncate(at),
                1 => bytes.insert(at, self.byte()),
                2 if at < bytes.len() => drop(bytes.remove(at)),
                3 => bytes.splice(at..at, (0..self.below(9)).map(|_| self.byte()).collect::<Vec<_>>()).for_each(drop),
                _ if at < bytes.len() => bytes[at] = self.byte(),
                _ => bytes.push(self.byte()),
            }
        }
    }
}
