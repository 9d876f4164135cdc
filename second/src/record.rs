//! A record as a value with every field, and its bytes in each edition.

use crate::edition::Edition;

/// Kind of a vertex-face record.
pub const VERTEX_FACE: u8 = 1;
/// Kind of an edge-edge record.
pub const EDGE_EDGE: u8 = 2;

/// x, y, z of a point.
pub type Point = [i32; 3];

/// One query. Nothing here is checked: a record may be one that is refused.
#[derive(Clone, Copy, Debug, PartialEq, Eq)]
pub struct Record {
    pub kind: u8,
    pub flags: u8,
    pub byte2: u8,
    pub byte3: u8,
    pub id: u32,
    /// On x, y, z; an edition 1 record means three equal ones.
    pub separations: [u32; 3],
    pub tolerance: u32,
    pub budget: u32,
    /// The word at 28 of editions 2 and 3: the last moment in 1/1,048,576 parts, 0 the whole step; an edition 1 record has none and means 0.
    pub cap: u32,
    /// p, v1, v2, v3 or p1, p2, p3, p4 at t = 0.
    pub start: [Point; 4],
    /// The same points at t = 1.
    pub end: [Point; 4],
}

impl Record {
    /// Where the second body's points begin: behind the vertex, or behind the first edge.
    pub fn second_body(&self) -> usize {
        if self.kind == VERTEX_FACE {
            1
        } else {
            2
        }
    }

    /// The record's bytes, little-endian, whatever the fields hold; edition 1 has room for x's separation only.
    pub fn bytes(&self, edition: Edition) -> Vec<u8> {
        let Record { id, separations: [x, y, z], tolerance, budget, cap, .. } = *self;
        let numbers = match edition {
            Edition::One => vec![id, x, tolerance, budget],
            Edition::Two | Edition::Three => vec![id, x, y, z, tolerance, budget, cap],
        };
        let mut bytes = vec![self.kind, self.flags, self.byte2, self.byte3];
        bytes.extend(numbers.into_iter().flat_map(u32::to_le_bytes));
        let coordinates = self.start.iter().chain(&self.end).flatten();
        bytes.extend(coordinates.flat_map(|coordinate| coordinate.to_le_bytes()));
        bytes
    }

    /// The record that an edition's bytes say, unchecked.
    pub fn from_bytes(edition: Edition, bytes: &[u8]) -> Record {
        let word = |at: usize| word_at(bytes, at);
        let (separations, tolerance, budget, cap, from) = match edition {
            Edition::One => ([word(8); 3], word(12), word(16), 0, 20),
            Edition::Two | Edition::Three => {
                ([8, 12, 16].map(word), word(20), word(24), word(28), 32)
            }
        };
        let point = |at: usize| [at, at + 4, at + 8].map(|at| word(at) as i32);
        let points = |at: usize| [at, at + 12, at + 24, at + 36].map(point);
        Record {
            kind: bytes[0],
            flags: bytes[1],
            byte2: bytes[2],
            byte3: bytes[3],
            id: word(4),
            separations,
            tolerance,
            budget,
            cap,
            start: points(from),
            end: points(from + 48),
        }
    }
}

/// The 32-bit unsigned little-endian number at a place.
pub fn word_at(bytes: &[u8], at: usize) -> u32 {
    u32::from_le_bytes([bytes[at], bytes[at + 1], bytes[at + 2], bytes[at + 3]])
}
