//! All numbers of several parts of a table joined by `or`, to see whether any of them is not 0.

/// As many numbers as one register holds; they are joined with each other only at the end.
const LANES: usize = 4;

#[derive(Default)]
pub(crate) struct Bits {
    lanes: [u32; LANES],
    others: u32,
}

impl Bits {
    /// Joins all numbers; to stop at the first that is not 0 would be slower.
    #[inline(always)]
    pub(crate) fn add(&mut self, places: &[u32]) {
        let chunks = places.chunks_exact(LANES);
        self.others |= or_of(chunks.remainder());
        for chunk in chunks {
            for (lane, units) in self.lanes.iter_mut().zip(chunk) {
                *lane |= units;
            }
        }
    }

    pub(crate) fn any(&self) -> bool {
        self.others | or_of(&self.lanes) != 0
    }
}

#[inline]
pub(crate) fn or_of(places: &[u32]) -> u32 {
    places.iter().fold(0, |bits, &units| bits | units)
}
