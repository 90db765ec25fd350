//! Repeatable choices.

/// A small generator (splitmix64): equal seeds give equal choices.
pub struct Random(u64);

impl Random {
    /// The choices of one book: the run's seed, its family and its place there.
    pub fn of(seed: u64, family: &str, place: u64) -> Random {
        let mut random = Random(seed);
        for byte in family.bytes() {
            random.0 = random.draw() ^ u64::from(byte);
        }
        random.0 = random.draw() ^ place;
        random
    }

    pub fn draw(&mut self) -> u64 {
        self.0 = self.0.wrapping_add(0x9E37_79B9_7F4A_7C15);
        let mut z = self.0;
        z = (z ^ (z >> 30)).wrapping_mul(0xBF58_476D_1CE4_E5B9);
        z = (z ^ (z >> 27)).wrapping_mul(0x94D0_49BB_1331_11EB);
        z ^ (z >> 31)
    }

    /// A number lower than n, which is not 0.
    pub fn lower(&mut self, n: usize) -> usize {
        (self.draw() % n as u64) as usize
    }

    /// A number of this range, both ends included.
    pub fn between(&mut self, low: usize, high: usize) -> usize {
        low + self.lower(high - low + 1)
    }

    /// Yes once in n times.
    pub fn once_in(&mut self, n: usize) -> bool {
        self.lower(n) == 0
    }

    pub fn pick<'a, T>(&mut self, from: &'a [T]) -> &'a T {
        &from[self.lower(from.len())]
    }

    /// A place in the list, each as often as its weight says.
    pub fn weighed(&mut self, weights: &[u32]) -> usize {
        let mut left = self.lower(weights.iter().sum::<u32>() as usize) as u32;
        weights
            .iter()
            .position(|&weight| {
                let here = left < weight;
                left = left.wrapping_sub(weight);
                here
            })
            .expect("the weights are not all 0")
    }
}
