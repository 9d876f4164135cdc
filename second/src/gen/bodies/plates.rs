//! Bodies laid out in cells, of which only neighbours come near each other.

use super::{count, turned, Drawn, Pair};
use crate::bodies::{Triangle, MOST_TRIANGLES};
use crate::gen::dice::Dice;
use crate::record::Point;

/// Cells side by side, two triangles each: where each point lies at the start and at the end.
struct Plate {
    cells_a_row: usize,
    step: i32,
    /// Of the first cell.
    corner: [i32; 2],
    /// At the start and at the end; tilted by so much a cell.
    heights: [i32; 2],
    tilts: [[i32; 2]; 2],
    noise: i32,
}

impl Plate {
    /// A level plate without noise.
    fn level(cells_a_row: usize, step: i32, heights: [i32; 2]) -> Plate {
        Plate { cells_a_row, step, corner: [0; 2], heights, tilts: [[0; 2]; 2], noise: 0 }
    }

    fn triangles(&self, rng: &mut Dice, count: usize) -> Vec<Triangle> {
        (0..count).map(|n| self.triangle(rng, n)).collect()
    }

    fn triangle(&self, rng: &mut Dice, n: usize) -> Triangle {
        let (column, row) = (n / 2 % self.cells_a_row, n / 2 / self.cells_a_row);
        let corners = [[(0, 0), (1, 0), (0, 1)], [(1, 1), (0, 1), (1, 0)]][n % 2];
        let mut at = |end: usize| corners.map(|(i, j)| self.point(rng, end, column + i, row + j));
        [at(0), at(1)]
    }

    fn point(&self, rng: &mut Dice, end: usize, column: usize, row: usize) -> Point {
        let (i, j) = (column as i32, row as i32);
        let [along, across] = self.tilts[end];
        let z = self.heights[end] + along * i + across * j + rng.between(-self.noise, self.noise);
        [self.corner[0] + self.step * i, self.corner[1] + self.step * j, z]
    }
}

fn size(rng: &mut Dice) -> i32 {
    rng.pick(&[24, 100, 1_000, 20_000])
}

/// An uneven plate that comes down on another and may pass through it.
pub fn near(rng: &mut Dice) -> Drawn {
    let step = size(rng);
    let above = [rng.between(step / 2, 3 * step), rng.between(-2 * step, 2 * step)];
    let pair = facing(rng, step, above);
    cheaper(rng, step, pair)
}

/// The same, apart by the separation and a little, or by much.
pub fn far(rng: &mut Dice) -> Drawn {
    let step = size(rng);
    let pair = facing(rng, step, [0; 2]);
    let mut drawn = Drawn::new(rng, step, pair);
    let axis = rng.below(3);
    let d = drawn.separations[axis] as i32;
    // A is moved up to where its least coordinate is so far above the greatest of B.
    let beyond = rng.pick(&[d, d + 1, d + 1, d + 2, d + step, d + 5 * step]);
    let of_axis = |positions: &[Vec<i32>; 2]| -> Vec<i32> {
        positions.iter().flat_map(|all| all.iter().skip(axis).step_by(3).copied()).collect()
    };
    let least = of_axis(&drawn.positions[0]).into_iter().min().expect("some triangle");
    let greatest = of_axis(&drawn.positions[1]).into_iter().max().expect("some triangle");
    for positions in &mut drawn.positions[0] {
        let coordinates = positions.iter_mut().skip(axis).step_by(3);
        coordinates.for_each(|coordinate| *coordinate += greatest + beyond - least);
    }
    if rng.one_in(2) {
        drawn.positions.swap(0, 1);
        drawn.counts.swap(0, 1);
    }
    drawn
}

/// Level plates, or one triangle many times: the same moment at many queries.
pub fn ties(rng: &mut Dice) -> Drawn {
    let step = size(rng);
    let (a, b) = (count(rng), count(rng));
    let height = rng.pick(&[0, step / 2, step, 2 * step]);
    let last = rng.pick(&[-height, 0, height, -step]);
    let once = rng.one_in(2);
    // Without a second cell in a row, all lie in one line; without a second row too, all lie in one place.
    let place = |rng: &mut Dice, plate: Plate, n: usize| {
        let triangles = plate.triangles(rng, n);
        if once {
            vec![triangles[0]; n]
        } else {
            triangles
        }
    };
    let cells = 1 + rng.below(4);
    let first = place(rng, Plate::level(cells, step, [height, last]), a);
    let second = place(rng, Plate::level(cells, step, [0; 2]), b);
    let pair = turned(rng, [first, second]);
    let mut drawn = cheaper(rng, step, pair);
    if rng.one_in(2) {
        drawn.separations = [0; 3];
    }
    drawn
}

/// A plate that is level, or tilted a little or more, comes down through a level one and is apart from it at the start: the least time
/// falls from pair to pair, or is found again in each.
pub fn falling(rng: &mut Dice) -> Drawn {
    let step = size(rng);
    let (cells, counts) = (1 + rng.below(4), [count(rng), count(rng)]);
    let tilt = rng.pick(&[0, 1, step / 8, step / 2]);
    let mut above = Plate::level(cells, step, [2 * step, -2 * step]);
    above.tilts = [[tilt; 2]; 2];
    let level = Plate::level(cells, step, [0; 2]);
    let mut pair = [above.triangles(rng, counts[0]), level.triangles(rng, counts[1])];
    if rng.one_in(2) {
        pair[0].reverse();
    }
    let pair = turned(rng, pair);
    let drawn = cheaper(rng, step, pair);
    // With a tolerance of the whole way the first box would answer.
    let most = rng.range().least_tolerance.max(step as u32);
    Drawn { tolerance: drawn.tolerance.min(most), ..drawn }
}

/// As many triangles as there may be: most pairs far apart, the plates' first or last cells near.
pub fn whole(rng: &mut Dice) -> Drawn {
    let step = rng.pick(&[1_000, 8_000, 20_000]);
    let tilt = rng.pick(&[step / 6, step / 10]);
    let low = rng.pick(&[-step / 4, -step / 10, step / 8, step / 6]);
    let (falls, noise) = (step, step / 10);
    let mut gangway = Plate::level(16, step, [low + falls, low]);
    (gangway.tilts, gangway.noise) = ([[tilt; 2]; 2], noise);
    let hull = Plate { noise, ..Plate::level(16, step, [0; 2]) };
    let mut pair = [&gangway, &hull].map(|plate| plate.triangles(rng, MOST_TRIANGLES));
    if rng.one_in(2) {
        // The near ones come last.
        pair.iter_mut().for_each(|triangles| triangles.reverse());
    }
    let pair = turned(rng, pair);
    let least = rng.range().least_tolerance;
    let tolerance = least.max(rng.pick(&[step / 20, step / 4, step / 2]) as u32);
    let budget = rng.between(40, 400) as u32;
    Drawn { tolerance, budget, ..Drawn::new(rng, step / 8, pair) }
}

/// Two plates over each other, not quite in line, in any order.
fn facing(rng: &mut Dice, step: i32, above: [i32; 2]) -> Pair {
    let cells_a_row = 1 + rng.below(6);
    let still = rng.one_in(3);
    let noise = rng.pick(&[0, 1, step / 8, step / 3]);
    let mut tilt = |most: i32| [rng.between(-most, most), rng.between(-most, most)];
    let (tilts, of_b) = ([tilt(step / 2), tilt(step / 2)], [tilt(step / 6), tilt(step / 6)]);
    let shift = [rng.between(-step, step), rng.between(-step, step)];
    let a = Plate { cells_a_row, step, corner: shift, heights: above, tilts, noise };
    let b = Plate { tilts: of_b, noise, ..Plate::level(cells_a_row, step, [0; 2]) };
    let counts = [count(rng), count(rng)];
    let mut pair = [a.triangles(rng, counts[0]), b.triangles(rng, counts[1])];
    if still {
        pair[1].iter_mut().for_each(|triangle| triangle[1] = triangle[0]);
    }
    if rng.one_in(2) {
        pair[0].reverse();
    }
    if rng.one_in(2) {
        pair[1].reverse();
    }
    if rng.one_in(2) {
        pair.swap(0, 1);
    }
    turned(rng, pair)
}

/// Numbers with which many triangles take no long time.
fn cheaper(rng: &mut Dice, reach: i32, pair: Pair) -> Drawn {
    let pairs = (pair[0].len() * pair[1].len()) as u32;
    let mut drawn = Drawn::new(rng, reach, pair);
    if pairs > 8 {
        drawn.tolerance = drawn.tolerance.max(reach as u32 / 20);
        drawn.budget = drawn.budget.min(100);
    }
    drawn
}
