//! A small random source with a fixed seed, so that every run writes the
//! same cases.

/// The xorshift64* generator.
pub struct Random {
    state: u64,
}

impl Random {
    /// The seed must not be 0, the one state the generator never leaves.
    pub fn new(seed: u64) -> Self {
        assert!(seed != 0);
        Random { state: seed }
    }

    pub fn next(&mut self) -> u64 {
        self.state ^= self.state >> 12;
        self.state ^= self.state << 25;
        self.state ^= self.state >> 27;
        self.state.wrapping_mul(0x2545_F491_4F6C_DD1D)
    }

    /// A number from 0 up to, but not including, `limit`.
    pub fn below(&mut self, limit: usize) -> usize {
        ((self.next() >> 32) as usize) % limit
    }

    pub fn pick<'a, T: ?Sized>(&mut self, choices: &[&'a T]) -> &'a T {
        choices[self.below(choices.len())]
    }

    /// Random pieces one after another, until the text is as long as a random
    /// length of at most `longest` bytes.
    pub fn text(&mut self, pieces: &[&str], longest: usize) -> String {
        let wanted = 1 + self.below(longest);
        let mut text = String::new();
        while text.len() < wanted {
            text.push_str(self.pick(pieces));
        }
        text.truncate(longest);
        text
    }

    /// A number whose width in bits is random too, so that small and large
    /// ones are equally frequent.
    pub fn magnitude(&mut self) -> u64 {
        let bits = 1 + self.below(64);
        self.next() >> (64 - bits)
    }
}
