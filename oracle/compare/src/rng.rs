//! The generator's random numbers: splitmix64, so that a seed and a case's number give the same case everywhere.

pub struct Rng {
    state: u64,
}

impl Rng {
    /// The numbers of one case of a seed.
    pub fn of_case(seed: u64, case: u64) -> Rng {
        let mut rng = Rng { state: seed };
        let scattered = rng.word() ^ case.wrapping_mul(0xD134_2543_DE82_EF95);
        Rng { state: scattered }
    }

    pub fn word(&mut self) -> u64 {
        self.state = self.state.wrapping_add(0x9E37_79B9_7F4A_7C15);
        let mut z = self.state;
        z = (z ^ (z >> 30)).wrapping_mul(0xBF58_476D_1CE4_E5B9);
        z = (z ^ (z >> 27)).wrapping_mul(0x94D0_49BB_1331_11EB);
        z ^ (z >> 31)
    }

    /// A number under `end`, which is not 0.
    pub fn below(&mut self, end: usize) -> usize {
        ((u128::from(self.word()) * end as u128) >> 64) as usize
    }

    /// A number of `first` to `last`.
    pub fn between(&mut self, first: usize, last: usize) -> usize {
        first + self.below(last - first + 1)
    }

    /// True once in `times`, on the average.
    pub fn once_in(&mut self, times: usize) -> bool {
        self.below(times) == 0
    }

    pub fn byte(&mut self) -> u8 {
        self.word() as u8
    }

    /// One of the list, which is not empty.
    pub fn pick<'a, T>(&mut self, list: &'a [T]) -> &'a T {
        &list[self.below(list.len())]
    }

    /// An index into a list of that length as the tables write it; none into an empty one.
    pub fn index(&mut self, length: usize) -> Option<u16> {
        (length > 0).then(|| self.below(length) as u16)
    }
}
