//! A small generator (splitmix64), one for each case, so that a case can be
//! replayed without those before it.

pub struct Random(u64);

impl Random {
    /// The generator of one case: its own for each seed, sort and index.
    pub fn of_case(seed: u64, sort: u64, index: u64) -> Self {
        let mut random = Random(seed);
        for part in [sort, index] {
            let mixed = random.next();
            random.0 = mixed ^ part.wrapping_mul(0xD6E8_FEB8_6659_FD93);
        }
        random
    }

    fn next(&mut self) -> u64 {
        self.0 = self.0.wrapping_add(0x9E37_79B9_7F4A_7C15);
        let mut z = self.0;
        z = (z ^ (z >> 30)).wrapping_mul(0xBF58_476D_1CE4_E5B9);
        z = (z ^ (z >> 27)).wrapping_mul(0x94D0_49BB_1331_11EB);
        z ^ (z >> 31)
    }

    pub fn word(&mut self) -> u32 {
        (self.next() >> 32) as u32
    }

    /// A number from 0 to n-1; n is at least 1.
    pub fn below(&mut self, n: usize) -> usize {
        ((u64::from(self.word()) * n as u64) >> 32) as usize
    }

    /// A number from least to most, both among them.
    pub fn between(&mut self, least: usize, most: usize) -> usize {
        least + self.below(most - least + 1)
    }

    /// The same as a word.
    pub fn small(&mut self, least: u32, most: u32) -> u32 {
        self.between(least as usize, most as usize) as u32
    }

    pub fn chance(&mut self, percent: usize) -> bool {
        self.below(100) < percent
    }

    pub fn pick<T: Copy>(&mut self, list: &[T]) -> T {
        list[self.below(list.len())]
    }

    /// Any word, with the words at the edges more often.
    pub fn edge_word(&mut self) -> u32 {
        const EDGES: [u32; 10] = [
            0,
            1,
            2,
            31,
            32,
            0x7FFF_FFFF,
            0x8000_0000,
            0x8000_0001,
            0xFFFF_FFFE,
            0xFFFF_FFFF,
        ];
        if self.chance(50) {
            self.pick(&EDGES)
        } else {
            self.word()
        }
    }
}
