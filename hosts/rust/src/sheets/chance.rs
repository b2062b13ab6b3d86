//! A small source of chance (splitmix64), so that a seed gives the same sheets everywhere.

pub struct Chance(u64);

impl Chance {
    /// Cases of one seed have sources that do not follow from each other.
    pub fn new(seed: u64, number: u64) -> Self {
        let mut own = Chance(seed);
        let seed = own.next();
        let mut own = Chance(seed ^ number.wrapping_mul(0xA24B_AED4_963E_E407));
        Chance(own.next())
    }

    pub fn next(&mut self) -> u64 {
        self.0 = self.0.wrapping_add(0x9E37_79B9_7F4A_7C15);
        let mut mixed = self.0;
        mixed = (mixed ^ (mixed >> 30)).wrapping_mul(0xBF58_476D_1CE4_E5B9);
        mixed = (mixed ^ (mixed >> 27)).wrapping_mul(0x94D0_49BB_1331_11EB);
        mixed ^ (mixed >> 31)
    }

    /// From 0 to `count` - 1.
    pub fn below(&mut self, count: u64) -> u64 {
        ((self.next() as u128 * count as u128) >> 64) as u64
    }

    /// From `low` to `high`, both included.
    pub fn between(&mut self, low: i64, high: i64) -> i64 {
        low + self.below((high - low + 1) as u64) as i64
    }

    pub fn one_in(&mut self, count: u64) -> bool {
        self.below(count) == 0
    }

    pub fn pick<'a, T>(&mut self, from: &'a [T]) -> &'a T {
        &from[self.below(from.len() as u64) as usize]
    }

    /// A place in a row of `count`, the first and the last more often than others.
    pub fn place(&mut self, count: usize) -> usize {
        match self.below(4) {
            0 => 0,
            1 => count - 1,
            _ => self.below(count as u64) as usize,
        }
    }

    /// From `low` to `high`: an end or its neighbour, a number of any length, or any number.
    pub fn edgy(&mut self, low: i64, high: i64) -> i64 {
        match self.below(8) {
            0 => low,
            1 => high,
            2 => *self.pick(&[(low + 1).min(high), (high - 1).max(low)]),
            3 | 4 => {
                let span = (high - low) as u64;
                let bits = 64 - span.leading_zeros() as u64;
                let most = span.min((1u64 << self.below(bits + 1)) - 1);
                low + self.below(most + 1) as i64
            }
            _ => self.between(low, high),
        }
    }
}
