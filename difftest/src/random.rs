//! A small deterministic generator (splitmix).

pub struct Random(u64);

impl Random {
    /// The generator of one case: a case does not depend on the ones before it.
    pub fn for_case(seed: u64, case: u64) -> Random {
        let mut mixed = Random(seed);
        let start = mixed.word() ^ case.wrapping_mul(0xd134_2543_de82_ef95);
        Random(start)
    }

    pub fn word(&mut self) -> u64 {
        self.0 = self.0.wrapping_add(0x9e37_79b9_7f4a_7c15);
        let mut z = self.0;
        z = (z ^ z >> 30).wrapping_mul(0xbf58_476d_1ce4_e5b9);
        z = (z ^ z >> 27).wrapping_mul(0x94d0_49bb_1331_11eb);
        z ^ z >> 31
    }

    /// A number below the bound, which is at least 1.
    pub fn below(&mut self, bound: usize) -> usize {
        (self.word() % bound as u64) as usize
    }

    /// A number from first to last.
    pub fn within(&mut self, first: usize, last: usize) -> usize {
        first + self.below(last - first + 1)
    }

    /// True once in so many times.
    pub fn one_in(&mut self, times: usize) -> bool {
        self.below(times) == 0
    }

    pub fn pick<T: Copy>(&mut self, choices: &[T]) -> T {
        choices[self.below(choices.len())]
    }

    pub fn shuffle<T>(&mut self, list: &mut [T]) {
        for k in 1..list.len() {
            list.swap(k, self.below(k + 1));
        }
    }
}
