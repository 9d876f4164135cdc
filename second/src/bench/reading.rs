//! Records read from their bytes in few instructions.

use super::motion::Points;
use crate::edition::Range;
use crate::record::{word_at, EDGE_EDGE, VERTEX_FACE};
use crate::refusals::{MOST_BUDGET, MOST_CAP, MOST_SEPARATION, MOST_TOLERANCE};

/// Bytes of a record of edition 1, and of editions 2 and 3.
pub const ONE: usize = 116;
pub const TWO: usize = 128;
/// Bytes of its coordinates, which end it.
const COORDINATES: usize = 96;
/// What a record is refused for, in the order in which it is looked at.
const NUMBERS: [u32; 8] = [1, 2, 3, 4, 5, 6, 22, 7];

/// A record; its 24 coordinates stay where they stand.
pub struct Query<'a> {
    kind: u8,
    flags: [u8; 3],
    pub id: u32,
    pub separations: [u32; 3],
    pub tolerance: u32,
    pub budget: u32,
    pub cap: u32,
    coordinates: &'a [u8; COORDINATES],
}

impl Query<'_> {
    #[inline(always)]
    pub fn of<const SIZE: usize>(bytes: &[u8; SIZE]) -> Query<'_> {
        let word = |at: usize| word_at(bytes, at);
        Query {
            kind: bytes[0],
            flags: [bytes[1], bytes[2], bytes[3]],
            id: word(4),
            separations: if SIZE == TWO { [word(8), word(12), word(16)] } else { [word(8); 3] },
            tolerance: if SIZE == TWO { word(20) } else { word(12) },
            budget: if SIZE == TWO { word(24) } else { word(16) },
            cap: if SIZE == TWO { word(28) } else { 0 },
            coordinates: bytes.last_chunk().expect("no record is shorter"),
        }
    }

    pub fn is_vertex_face(&self) -> bool {
        self.kind == VERTEX_FACE
    }

    /// Of a point at an end on an axis, as it stands.
    #[inline(always)]
    pub fn coordinate(&self, point: usize, end: usize, axis: usize) -> i32 {
        word_at(self.coordinates, 4 * (12 * end + 3 * point + axis)) as i32
    }

    /// The first refusal in order; 0 for none. 7 is known beforehand, as the queue is the same for all.
    #[inline(always)]
    pub fn refusal(&self, range: &Range, is_no_queue: bool) -> u32 {
        let [flags, byte2, byte3] = self.flags;
        let refused = [
            self.kind != VERTEX_FACE && self.kind != EDGE_EDGE,
            u32::from(flags & 0xFE) | u32::from(byte2) | u32::from(byte3) != 0,
            self.has_outside(range.most_coordinate as u32),
            self.separations.iter().any(|d| *d > MOST_SEPARATION),
            !(range.least_tolerance..=MOST_TOLERANCE).contains(&self.tolerance),
            !(1..=MOST_BUDGET).contains(&self.budget),
            self.cap > MOST_CAP,
            is_no_queue,
        ];
        // One test for all that are sound, in place of eight.
        let bits = (0..8).fold(0_u32, |bits, n| bits | u32::from(refused[n]) << n);
        if bits == 0 {
            0
        } else {
            number(bits)
        }
    }

    #[inline(always)]
    fn has_outside(&self, most: u32) -> bool {
        // From the least allowed on, unsigned: one comparison for both sides, and one for all.
        let mut furthest = 0;
        for n in 0..COORDINATES / 4 {
            let coordinate = word_at(self.coordinates, 4 * n);
            furthest = coordinate.wrapping_add(most).max(furthest);
        }
        furthest > 2 * most
    }
}

/// Of the lowest bit; by itself, as few records are refused.
#[cold]
fn number(bits: u32) -> u32 {
    NUMBERS[bits.trailing_zeros() as usize]
}

/// As the search takes them: with the flag, y of the second body is negated.
impl Points for Query<'_> {
    #[inline(always)]
    fn at(&self, point: usize, end: usize, axis: usize) -> i32 {
        let in_second_body = point >= if self.is_vertex_face() { 1 } else { 2 };
        let coordinate = self.coordinate(point, end, axis);
        if axis == 1 && in_second_body && self.flags[0] & 1 == 1 {
            -coordinate
        } else {
            coordinate
        }
    }
}

/// The records of an opened file, from its first one on; SIZE is its edition's.
pub fn records<const SIZE: usize>(
    file: &[u8],
    first: usize,
    count: usize,
) -> impl Iterator<Item = Query<'_>> {
    let records = file[first..].chunks_exact(SIZE).take(count);
    records.map(|bytes| Query::of::<SIZE>(bytes.try_into().expect("a chunk of SIZE")))
}
