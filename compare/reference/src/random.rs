//! A small generator of numbers that come out the same on every run.

/// Splitmix64: the state walks by a fixed odd step, and each state is mixed.
#[derive(Clone, Debug)]
pub struct Random {
    state: u64,
}

impl Random {
    pub fn new(seed: u64) -> Random {
        Random { state: seed }
    }

    pub fn next_number(&mut self) -> u64 {
        self.state = self.state.wrapping_add(0x9E37_79B9_7F4A_7C15);
        let mut mixed = self.state;
        mixed = (mixed ^ (mixed >> 30)).wrapping_mul(0xBF58_476D_1CE4_E5B9);
        mixed = (mixed ^ (mixed >> 27)).wrapping_mul(0x94D0_49BB_1331_11EB);
        mixed ^ (mixed >> 31)
    }

    /// A number below `count`. The slight lean of a remainder towards small
    /// numbers does no harm to test inputs.
    pub fn below(&mut self, count: usize) -> usize {
        (self.next_number() % count as u64) as usize
    }

    /// A number from `lowest` to `highest`, both included.
    pub fn between(&mut self, lowest: u64, highest: u64) -> u64 {
        let count = highest - lowest + 1;
        lowest + self.next_number() % count
    }

    /// True once in `count` times on average.
    pub fn one_in(&mut self, count: usize) -> bool {
        self.below(count) == 0
    }

    pub fn pick<T: Copy>(&mut self, choices: &[T]) -> T {
        choices[self.below(choices.len())]
    }

    /// Puts the items in any order.
    pub fn shuffle<T>(&mut self, items: &mut [T]) {
        for count in (2..=items.len()).rev() {
            items.swap(count - 1, self.below(count));
        }
    }

    pub fn byte(&mut self) -> u8 {
        self.next_number() as u8
    }

    /// A number of `width` bits, at least 1 and at most 64.
    pub fn bits(&mut self, width: usize) -> u64 {
        self.next_number() >> (64 - width)
    }
}
