//! Made-up numbers, the same ones for the same seed, section and case.

/// A generator of numbers: splitmix64.
#[derive(Clone, Debug)]
pub struct Random(u64);

impl Random {
    /// The numbers of a case.
    pub fn new(seed: u64, section: &str, case: u64) -> Self {
        let mut random = Self(seed);
        for part in section.bytes().map(u64::from).chain([case]) {
            random.0 = random.next() ^ part;
        }
        random
    }

    /// Any number.
    pub fn next(&mut self) -> u64 {
        self.0 = self.0.wrapping_add(0x9e37_79b9_7f4a_7c15);
        let mut z = self.0;
        z = (z ^ (z >> 30)).wrapping_mul(0xbf58_476d_1ce4_e5b9);
        z = (z ^ (z >> 27)).wrapping_mul(0x94d0_49bb_1331_11eb);
        z ^ (z >> 31)
    }

    /// A number below a bound, 0 below none.
    pub fn below(&mut self, bound: u64) -> u64 {
        ((u128::from(self.next()) * u128::from(bound)) >> 64) as u64
    }

    /// An index of, or a length up to, what has fewer than `bound`.
    pub fn index(&mut self, bound: usize) -> usize {
        self.below(bound as u64) as usize
    }

    /// True once in that many times.
    pub fn one_in(&mut self, times: u64) -> bool {
        self.below(times) == 0
    }

    /// One of a choice.
    pub fn pick<T: Copy>(&mut self, choice: &[T]) -> T {
        choice[self.index(choice.len())]
    }

    /// A number of any size: small ones most often, those around a power of two and the greatest too.
    pub fn number(&mut self) -> u64 {
        match self.below(16) {
            0..=8 => self.below(20),
            9..=10 => self.below(300),
            11..=12 => {
                let power = 1_u64 << self.below(64);
                power.wrapping_add(self.below(5)).wrapping_sub(2)
            }
            13 => u64::MAX - self.below(20),
            _ => {
                let bits = self.below(64);
                self.next() >> bits
            }
        }
    }
}

#[cfg(test)]
mod tests {
    use super::*;

    #[test]
    fn a_case_has_numbers_of_its_own() {
        let numbers = |seed, section, case| {
            let mut random = Random::new(seed, section, case);
            [random.next(), random.next()]
        };
        assert_eq!(numbers(1, "a", 1), numbers(1, "a", 1));
        for other in [numbers(2, "a", 1), numbers(1, "b", 1), numbers(1, "a", 2)] {
            assert_ne!(numbers(1, "a", 1), other);
        }
    }

    #[test]
    fn bounds() {
        let mut random = Random::new(1, "", 0);
        assert_eq!(random.below(0), 0);
        assert!((0..1000).all(|_| random.below(3) < 3));
    }
}
