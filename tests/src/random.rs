//! Numbers by chance that every run repeats: splitmix64 from a fixed seed.

pub struct Random(u64);

impl Random {
    pub fn new(seed: u64) -> Random {
        Random(seed)
    }

    /// Any 64 bits.
    pub fn any(&mut self) -> u64 {
        self.0 = self.0.wrapping_add(0x9e37_79b9_7f4a_7c15);
        let mut x = self.0;
        x = (x ^ x >> 30).wrapping_mul(0xbf58_476d_1ce4_e5b9);
        x = (x ^ x >> 27).wrapping_mul(0x94d0_49bb_1331_11eb);
        x ^ x >> 31
    }

    /// From the least to the most, both included. The remainder's slight slant does not matter here.
    pub fn between(&mut self, least: u64, most: u64) -> u64 {
        match (most - least).checked_add(1) {
            Some(width) => least + self.any() % width,
            None => self.any(),
        }
    }

    /// A number of few bits as often as one of many, so that small and large operands both come up.
    pub fn of_any_size(&mut self, most: u64) -> u64 {
        let bits = self.between(0, 64);
        let x = if bits == 0 { 0 } else { self.any() >> (64 - bits) };
        if x <= most {
            x
        } else {
            self.between(0, most)
        }
    }

    /// Puts all in any order.
    pub fn shuffle<T>(&mut self, all: &mut [T]) {
        for i in 1..all.len() {
            all.swap(i, self.between(0, i as u64) as usize);
        }
    }

    pub fn signed(&mut self, least: i32, most: i32) -> i32 {
        let width = most.abs_diff(least).into();
        (i64::from(least) + self.between(0, width) as i64) as i32
    }
}
