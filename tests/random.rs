//! A seeded source of numbers (splitmix64), so that every case can be made again from its seed.

use crate::model::{Labelling, CEILING, GREATEST, OVER};

pub struct Rng {
    state: u64,
}

/// Numbers at which a narrower type, a signed one or a wrapping sum goes wrong.
const EDGES: [u64; 18] = [
    0,
    1,
    16,
    17,
    1_024,
    1_025,
    GREATEST,
    GREATEST + 1,
    GREATEST + 2,
    CEILING,
    OVER,
    OVER + 1,
    (1 << 32) - 1,
    1 << 32,
    (1 << 63) - 1,
    1 << 63,
    u64::MAX - 1,
    u64::MAX,
];

impl Rng {
    /// A stream of its own for each test and case: a case does not depend on how many ran before.
    pub fn stream(seed: u64, name: &str, case: u64) -> Rng {
        let mut rng = Rng { state: seed };
        for byte in name.bytes() {
            rng.state = rng.next() ^ u64::from(byte);
        }
        rng.state = rng.next() ^ case;
        rng.next();
        rng
    }

    pub fn next(&mut self) -> u64 {
        self.state = self.state.wrapping_add(0x9E37_79B9_7F4A_7C15);
        let mut mixed = self.state;
        mixed = (mixed ^ (mixed >> 30)).wrapping_mul(0xBF58_476D_1CE4_E5B9);
        mixed = (mixed ^ (mixed >> 27)).wrapping_mul(0x94D0_49BB_1331_11EB);
        mixed ^ (mixed >> 31)
    }

    /// A number below `bound`, which is not 0. The slight bias of the remainder does no harm here.
    pub fn below(&mut self, bound: u64) -> u64 {
        self.next() % bound
    }

    pub fn index(&mut self, bound: usize) -> usize {
        self.below(bound as u64) as usize
    }

    pub fn between(&mut self, low: u64, high: u64) -> u64 {
        low + self.below(high - low + 1)
    }

    pub fn chance(&mut self, percent: u64) -> bool {
        self.below(100) < percent
    }

    pub fn pick<T: Copy>(&mut self, from: &[T]) -> T {
        from[self.index(from.len())]
    }

    pub fn shuffle<T>(&mut self, items: &mut [T]) {
        for last in (1..items.len()).rev() {
            items.swap(last, self.index(last + 1));
        }
    }

    /// Any number, those near a limit and small ones more often.
    pub fn any(&mut self) -> u64 {
        match self.below(4) {
            0 => self.below(8),
            1 => self.next(),
            _ => self.pick(&EDGES),
        }
    }

    pub fn noise(&mut self, length: usize) -> Vec<u64> {
        (0..length).map(|_| self.any()).collect()
    }

    /// Answer columns that hold anything.
    pub fn labelling(&mut self, lengths: [usize; 4]) -> Labelling {
        let [weights, depths, edges, pieces] = lengths.map(|length| self.noise(length));
        Labelling { weights, depths, edges, pieces }
    }
}
