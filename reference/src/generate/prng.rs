//! A small source of numbers that gives the same ones on every machine (splitmix64).

/// What the numbers of a source are drawn for.
#[derive(Clone, Copy)]
pub enum Purpose {
    Fixed,
    File,
    Hand,
    Night,
    Lending,
    Damaged,
    JobText,
    JobList,
    QuotedList,
    Ended,
    Words,
    Shift,
    Desk,
    Reading,
    Log,
}

/// The state of one source.
pub struct Prng {
    state: u64,
}

impl Prng {
    /// A source for one input of one seed; sources of a seed do not depend on each other.
    pub fn new(seed: u64, purpose: Purpose, input: u64) -> Prng {
        let mut prng = Prng { state: seed };
        prng.state = prng.word() ^ purpose as u64;
        prng.state = prng.word() ^ input;
        prng.state = prng.word();
        prng
    }

    /// The next 64 bits. Wrapping is what this well-known generator is made of.
    pub fn word(&mut self) -> u64 {
        self.state = self.state.wrapping_add(0x9E37_79B9_7F4A_7C15);
        let mut mixed = self.state;
        mixed = (mixed ^ (mixed >> 30)).wrapping_mul(0xBF58_476D_1CE4_E5B9);
        mixed = (mixed ^ (mixed >> 27)).wrapping_mul(0x94D0_49BB_1331_11EB);
        mixed ^ (mixed >> 31)
    }

    /// A number below a limit, which is not 0.
    pub fn below(&mut self, limit: u64) -> u64 {
        self.word() % limit
    }

    /// An index into a list of this length.
    pub fn index(&mut self, length: usize) -> usize {
        self.below(length as u64) as usize
    }

    /// A number from `least` to `most`, both included.
    pub fn between(&mut self, least: u64, most: u64) -> u64 {
        least + self.below(most - least + 1)
    }

    /// True once in this many times.
    pub fn once_in(&mut self, times: u64) -> bool {
        self.below(times) == 0
    }

    pub fn pick<T: Copy>(&mut self, list: &[T]) -> T {
        list[self.index(list.len())]
    }

    pub fn shuffle<T>(&mut self, list: &mut [T]) {
        for last in (1..list.len()).rev() {
            list.swap(last, self.index(last + 1));
        }
    }
}

#[cfg(test)]
mod tests {
    //! The generator is the well-known one, so that a stranger can rebuild it.

    use super::*;

    #[test]
    fn first_numbers_from_state_zero_are_the_published_ones() {
        let mut prng = Prng { state: 0 };
        assert_eq!(prng.word(), 0xE220_A839_7B1D_CDAF);
        assert_eq!(prng.word(), 0x6E78_9E6A_A1B9_65F4);
    }

    #[test]
    fn numbers_stay_within_their_limits() {
        let mut prng = Prng::new(1, Purpose::File, 2);
        assert!((0..100).all(|_| prng.below(3) < 3));
        assert!((0..100).all(|_| (5..=7).contains(&prng.between(5, 7))));
    }
}
