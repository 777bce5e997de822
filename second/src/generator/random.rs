//! The generator's dice: splitmix64, and ways to throw it.

/// A run of numbers that a seed determines.
pub struct Random {
    state: u64,
}

impl Random {
    pub fn new(seed: u64) -> Random {
        Random { state: seed }
    }

    /// The next 64 bits (splitmix64).
    pub fn draw(&mut self) -> u64 {
        self.state = self.state.wrapping_add(0x9E37_79B9_7F4A_7C15);
        let mut mixed = self.state;
        mixed = (mixed ^ (mixed >> 30)).wrapping_mul(0xBF58_476D_1CE4_E5B9);
        mixed = (mixed ^ (mixed >> 27)).wrapping_mul(0x94D0_49BB_1331_11EB);
        mixed ^ (mixed >> 31)
    }

    /// 0 to `bound` - 1; 0 for a bound of 0.
    pub fn below(&mut self, bound: usize) -> usize {
        (self.draw() >> 11) as usize % bound.max(1)
    }

    /// `low` to `high`, both included.
    pub fn between(&mut self, low: i64, high: i64) -> i64 {
        let width = high.saturating_sub(low).max(0) as u64 + 1;
        low + ((self.draw() >> 11) % width) as i64
    }

    /// True in so many of a thousand throws.
    pub fn chance(&mut self, per_mille: usize) -> bool {
        self.below(1_000) < per_mille
    }

    pub fn octet(&mut self) -> u8 {
        (self.draw() >> 40) as u8
    }

    /// One of the things given; there must be one.
    pub fn pick<T: Copy>(&mut self, things: &[T]) -> T {
        things[self.below(things.len())]
    }

    /// The place of a weight, thrown by the weights.
    pub fn weighed(&mut self, weights: &[usize]) -> usize {
        let mut thrown = self.below(weights.iter().sum());
        for (place, &weight) in weights.iter().enumerate() {
            if thrown < weight {
                return place;
            }
            thrown -= weight;
        }
        0
    }

    pub fn shuffle<T>(&mut self, things: &mut [T]) {
        for place in (1..things.len()).rev() {
            things.swap(place, self.below(place + 1));
        }
    }

    /// Octets of some flavour: any, many that must be escaped, text, alike.
    pub fn octets(&mut self, length: usize) -> Vec<u8> {
        let flavour = self.weighed(&[5, 3, 2, 1]);
        let same = self.octet();
        (0..length)
            .map(|_| match flavour {
                0 => self.octet(),
                1 => self.pick(&[0x7E, 0x7D, 0x5E, 0x5D, 0x20, 0x00]),
                2 => self.between(0x20, 0x7E) as u8,
                _ => same,
            })
            .collect()
    }
}

#[cfg(test)]
mod tests {
    use super::*;

    #[test]
    fn published_splitmix64() {
        let mut random = Random::new(1_234_567);
        let first: Vec<u64> = (0..3).map(|_| random.draw()).collect();
        assert_eq!(first, [6457827717110365317, 3203168211198807973, 9817491932198370423]);
    }

    #[test]
    fn throws_stay_in_their_bounds() {
        let mut random = Random::new(7);
        let mut seen = [false; 5];
        for _ in 0..1_000 {
            seen[random.below(5)] = true;
            assert!((-3..=3).contains(&random.between(-3, 3)));
            assert_eq!(random.weighed(&[0, 1, 0]), 1);
        }
        assert_eq!(seen, [true; 5]);
        assert_eq!(random.below(0), 0);
    }
}
