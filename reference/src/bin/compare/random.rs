//! Numbers that look random and are the same each time: splitmix64.

const STEP: u64 = 0x9e37_79b9_7f4a_7c15;

/// A source of numbers.
pub struct Random {
    state: u64,
}

impl Random {
    /// The source for one input, which depends on the seed and the input's number only.
    pub fn of(seed: u64, number: u64) -> Random {
        Random {
            state: mixed(mixed(seed) ^ number.wrapping_mul(STEP)),
        }
    }

    /// The next 64 bits.
    pub fn next(&mut self) -> u64 {
        self.state = self.state.wrapping_add(STEP);
        mixed(self.state)
    }

    /// A number from 0 to `bound` less 1; nothing lies below a bound of 0, for which it is 0.
    pub fn below(&mut self, bound: usize) -> usize {
        (self.next() % bound.max(1) as u64) as usize
    }

    /// A number from `low` to `high`, both of which can come.
    pub fn within(&mut self, low: usize, high: usize) -> usize {
        low + self.below(high - low + 1)
    }

    /// True about once in so many times.
    pub fn one_in(&mut self, times: usize) -> bool {
        self.below(times) == 0
    }

    /// Any byte.
    pub fn byte(&mut self) -> u8 {
        self.next() as u8
    }

    /// One of some values.
    pub fn pick<T: Copy>(&mut self, values: &[T]) -> T {
        values[self.below(values.len())]
    }

    /// Puts values into another order.
    pub fn shuffle<T>(&mut self, values: &mut [T]) {
        for place in (1..values.len()).rev() {
            values.swap(place, self.below(place + 1));
        }
    }

    /// Two different people out of two or more.
    pub fn two_of(&mut self, people: usize) -> (usize, usize) {
        let first = self.below(people);
        let second = (first + self.within(1, people - 1)) % people;
        (first, second)
    }
}

/// Mixes the bits of a number thoroughly.
fn mixed(number: u64) -> u64 {
    let number = (number ^ number >> 30).wrapping_mul(0xbf58_476d_1ce4_e5b9);
    let number = (number ^ number >> 27).wrapping_mul(0x94d0_49bb_1331_11eb);
    number ^ number >> 31
}
