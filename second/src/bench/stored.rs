//! A box as it stands in a word of the queue.

use super::answering::{Answer, CLEAR};
use super::motion::Asked;

/// Where the t, u and v index stand.
pub const SHIFTS: [u32; 3] = [40, 20, 0];
/// Bits of an index: no edition goes deeper.
const INDEX_BITS: u32 = 20;
/// An index, before it is shifted.
pub const INDEX: u64 = (1 << INDEX_BITS) - 1;

/// The low t, u, v over 2 to a depth that none of these exceeds.
#[inline(always)]
fn place(word: u64, depths: &[u32; 3], depth: u32) -> [i64; 3] {
    [0, 1, 2].map(|n| ((word >> SHIFTS[n] & INDEX) << (depth - depths[n])) as i64)
}

/// Of vertex-face only: whether some of the box has u + v up to 1.
#[inline(always)]
pub fn is_inside(word: u64, depths: &[u32; 3]) -> bool {
    let [_, u, v] = place(word, depths, INDEX_BITS);
    u + v <= 1 << INDEX_BITS
}

/// A first survivor; what is told of it is worked out at the end.
pub struct Recorded {
    pub word: u64,
    pub depths: [u32; 3],
}

impl Recorded {
    pub const NONE: Recorded = Recorded { word: 0, depths: [0; 3] };

    /// What a search comes to that ends with this word, and so much of its budget left.
    #[inline(always)]
    pub fn answer(&self, word: u32, asked: &Asked, left: usize) -> Answer {
        let count = asked.budget - left as u32;
        if word == CLEAR {
            return [CLEAR, 0, 0, 0, 0, count];
        }
        let [t, u, v, excess] = asked.told(place(self.word, &self.depths, asked.deepest));
        [word, t, u, v, excess, count]
    }
}
