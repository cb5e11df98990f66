/// SplitMix64 (Steele, Lea and Flood, 2014).
pub struct Random {
    state: u64,
}

impl Random {
    /// Numbers that depend on the seed, the row and the place in it alone, so that a row may be
    /// split among threads.
    #[must_use]
    pub fn at(seed: u64, row: u64, place: u64) -> Random {
        let row = Random { state: seed ^ row.wrapping_mul(0xd6e8_feb8_6659_fd93) }.number();
        Random { state: row ^ place.wrapping_mul(0xa076_1d64_78bd_642f) }
    }

    pub fn number(&mut self) -> u64 {
        self.state = self.state.wrapping_add(0x9e37_79b9_7f4a_7c15);
        let mut z = self.state;
        z = (z ^ (z >> 30)).wrapping_mul(0xbf58_476d_1ce4_e5b9);
        z = (z ^ (z >> 27)).wrapping_mul(0x94d0_49bb_1331_11eb);
        z ^ (z >> 31)
    }

    /// A number below `bound`, which is not 0.
    pub fn below(&mut self, bound: u32) -> u32 {
        ((u128::from(self.number()) * u128::from(bound)) >> 64) as u32
    }

    pub fn one_of<T: Copy>(&mut self, values: &[T]) -> T {
        values[self.below(values.len() as u32) as usize]
    }
}
