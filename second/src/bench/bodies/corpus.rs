//! A gangway and a ship's side of 256 triangles each: far apart, near each other, touching, and with the gangway's last block alone near.

use super::bounds::Kept;
use crate::bench::berth::middle;
use crate::bodies::{Bodies, Body, MOST_TRIANGLES, NUMBERS};
use crate::edition::Edition;
use crate::rng::Rng;

/// Units of a centimetre.
const CENTIMETRE: i32 = 80;
/// Side of a cell, and how far up the ship's side goes in it: steep, so that boxes of near cells overlap and only smaller ones part.
const CELL: i32 = 60 * CENTIMETRE;
const RISE: i32 = 40 * CENTIMETRE;
/// Cells of a row; two triangles a cell, so that a row is a block.
const ROW: i32 = 16;
const ROWS: i32 = MOST_TRIANGLES as i32 / 2 / ROW;
/// Plates are uneven by so much.
const UNEVEN: i32 = CENTIMETRE;

/// Triangles of both bodies, from few to all.
pub const COUNTS: [usize; 5] = [16, 32, 64, 128, MOST_TRIANGLES];
/// The same in whole blocks.
pub const BLOCKS_COUNTS: [usize; 4] = [32, 64, 128, MOST_TRIANGLES];
pub const TOLERANCE: u32 = 200;
pub const BUDGET: u32 = 1_000;
/// 5 cm on each axis.
pub const SEPARATIONS: [u32; 3] = [400, 400, 400];

/// Two bodies of one sort.
pub struct Class {
    pub name: &'static str,
    edition: Edition,
    /// A at the start and at the end, then B.
    positions: [[Vec<i32>; 2]; 2],
}

/// Of the gangway over the ship's side, in centimetres: at the start and at the end, and how much more a row.
struct Heights {
    ends: [i32; 2],
    a_row: i32,
    /// How far it stands back from the ship's first row, in fifths of a cell.
    back: i32,
}

impl Class {
    pub fn all(seed: u64, edition: Edition) -> [Class; 4] {
        let mut rng = Rng::new(seed, "bodies of the bench");
        let middle = middle(edition.range());
        let classes = [
            ("far apart", Heights { ends: [800, 700], a_row: 0, back: 0 }),
            ("near", Heights { ends: [30, 16], a_row: 0, back: 0 }),
            ("touching", Heights { ends: [40, -8], a_row: 12, back: 0 }),
            // Its last row, which is its last block, reaches a little over the ship's first.
            ("last block near", Heights { ends: [30, 16], a_row: 0, back: 5 * (ROWS - 1) + 2 }),
        ];
        classes.map(|(name, heights)| {
            let positions = bodies(&mut rng, &heights, middle);
            Class { name, edition, positions }
        })
    }

    /// The first so many triangles of both.
    pub fn bodies(&self, count: usize) -> Bodies<'_> {
        let [a, b] = self.positions.each_ref().map(|[start, end]| Body {
            count,
            start: &start[..NUMBERS * count],
            end: &end[..NUMBERS * count],
        });
        let (separations, tolerance, budget) = (SEPARATIONS, TOLERANCE, BUDGET);
        Bodies { edition: self.edition.number(), a, b, separations, tolerance, budget }
    }

    /// The same two, each with its bounds.
    pub fn kept(&self, count: usize) -> [Kept; 2] {
        let Bodies { edition, a, b, .. } = self.bodies(count);
        [a, b].map(|body| Kept::new(edition, &body))
    }
}

/// The gangway comes down by the heights; the ship heaves and surges a little.
fn bodies(rng: &mut Rng, heights: &Heights, middle: i32) -> [[Vec<i32>; 2]; 2] {
    let (heave, surge) = (rng.between(-400, 400), rng.between(-200, 200));
    // Not in line with the ship's cells.
    let fifths = 1 - heights.back;
    let shift = [CELL / 3, CELL / 5 * fifths, RISE / 5 * fifths];
    let above = |end: usize, row: i32| CENTIMETRE * (heights.ends[end] + heights.a_row * row);
    let gangway = [0, 1].map(|end| {
        plate(|column, row| {
            let (x, y) = (middle + shift[0] + CELL * column, shift[1] + CELL * row);
            [x, y, above(end, row) + RISE * row + shift[2]]
        })
    });
    let hull = [0, 1].map(|end| {
        let (along, up) = if end == 0 { (0, 0) } else { (surge, heave) };
        plate(|column, row| [middle + CELL * column + along, CELL * row, RISE * row + up])
    });
    // One unevenness a corner, the same at both ends.
    [gangway, hull].map(|ends| {
        let uneven: Vec<i32> = ends[0].iter().map(|_| rng.between(-UNEVEN, UNEVEN)).collect();
        ends.map(|list| list.iter().zip(&uneven).map(|(place, off)| place + off).collect())
    })
}

/// Two triangles for each cell, nine numbers each.
fn plate(point: impl Fn(i32, i32) -> [i32; 3]) -> Vec<i32> {
    let mut numbers = Vec::new();
    for cell in 0..ROW * ROWS {
        let (column, row) = (cell % ROW, cell / ROW);
        for (i, j) in [(0, 0), (1, 0), (0, 1), (1, 1), (0, 1), (1, 0)] {
            numbers.extend(point(column + i, row + j));
        }
    }
    numbers
}
