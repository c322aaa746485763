//! The numbers a generated script is drawn from: splitmix64, written out, so
//! that a seed gives the same script on every machine.

/// One stream of draws.
pub(crate) struct Dice(pub u64);

/// The step of splitmix64, 2^64 over the golden ratio.
const STEP: u64 = 0x9E37_79B9_7F4A_7C15;

/// The mixing of splitmix64.
fn mixed(bits: u64) -> u64 {
    let bits = (bits ^ (bits >> 30)).wrapping_mul(0xBF58_476D_1CE4_E5B9);
    let bits = (bits ^ (bits >> 27)).wrapping_mul(0x94D0_49BB_1331_11EB);
    bits ^ (bits >> 31)
}

impl Dice {
    /// The stream of one script. Each of seed and index is mixed before they
    /// meet, so that neighbouring scripts share no draws.
    pub fn of(seed: u64, index: u64) -> Dice {
        let seed = mixed(seed.wrapping_add(STEP));
        Dice(mixed(seed ^ index.wrapping_mul(STEP)))
    }

    pub fn bits(&mut self) -> u64 {
        self.0 = self.0.wrapping_add(STEP);
        mixed(self.0)
    }

    /// One of 0 to `count` - 1; 0 where there is none. The high half of the
    /// product is fair enough for any count here.
    pub fn below(&mut self, count: usize) -> usize {
        let product = u128::from(self.bits()) * (count as u128);
        (product >> 64) as usize
    }

    /// A whole number from `low` to `high`.
    pub fn between(&mut self, low: i64, high: i64) -> i64 {
        let count = high.abs_diff(low).saturating_add(1);
        low.wrapping_add(self.below(count as usize) as i64)
    }

    pub fn one_in(&mut self, count: usize) -> bool {
        self.below(count) == 0
    }

    pub fn one_of<T: Copy>(&mut self, choices: &[T]) -> T {
        choices[self.below(choices.len())]
    }

    /// Puts a list into any order.
    pub fn shuffle<T>(&mut self, list: &mut [T]) {
        for last in (1..list.len()).rev() {
            list.swap(last, self.below(last + 1));
        }
    }
}
